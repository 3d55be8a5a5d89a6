//! The relations of the plain judge, each a matrix filled by loops over the records.

use crate::plain_matrix::Matrix;
use second::table::{Order, Record};

pub struct Relations {
    pub cf: Matrix,
    pub hb: Matrix,
    pub race: Matrix,
    pub wb0: Matrix,
    /// hbsc, wb and fr, among SC records.
    pub sc: Matrix,
}

impl Relations {
    pub fn of(records: &[Record]) -> Relations {
        let po = program_order(records);
        let cf = conflict(records, &po);
        let hb = happens_before(records, &po);
        let race = race(records, &hb, &cf);
        let wb0 = write_before(records, &hb);
        let wb = wb0.clone().closure();
        let sc = sc_steps(records, &po, &hb, &wb);
        Relations { cf, hb, race, wb0, sc }
    }
}

fn program_order(records: &[Record]) -> Matrix {
    let mut po = Matrix::empty(records.len());
    for b in 0..records.len() {
        let mut above = records[b].parent;
        while let Some(a) = above {
            po.set(a, b);
            above = records[a].parent;
        }
    }
    po
}

/// From each two records of one thread that are apart, to all below them.
fn conflict(records: &[Record], po: &Matrix) -> Matrix {
    let size = records.len();
    let mut cf = Matrix::empty(size);
    for top_a in 0..size {
        for top_b in 0..size {
            let one_thread = records[top_a].thread == records[top_b].thread;
            if !one_thread || top_a == top_b || po.has(top_a, top_b) || po.has(top_b, top_a) {
                continue;
            }
            for a in (0..size).filter(|&a| a == top_a || po.has(top_a, a)) {
                for b in (0..size).filter(|&b| b == top_b || po.has(top_b, b)) {
                    cf.set(a, b);
                }
            }
        }
    }
    cf
}

fn happens_before(records: &[Record], po: &Matrix) -> Matrix {
    let sw = |a: usize, b: usize| {
        records[b].source == Some(a) && records[a].order.releases() && records[b].order.acquires()
    };
    Matrix::of(records.len(), |a, b| po.has(a, b) || sw(a, b)).closure()
}

fn race(records: &[Record], hb: &Matrix, cf: &Matrix) -> Matrix {
    Matrix::of(records.len(), |a, b| {
        a != b
            && records[a].shares_location(&records[b])
            && (records[a].is_write() || records[b].is_write())
            && (records[a].order == Order::Na || records[b].order == Order::Na)
            && !hb.has(a, b)
            && !hb.has(b, a)
            && !cf.has(a, b)
    })
}

/// wb0: where one record is hb before another of its location, the writes that the first stands for are before those of the
/// second.
fn write_before(records: &[Record], hb: &Matrix) -> Matrix {
    let size = records.len();
    let mut wb0 = Matrix::empty(size);
    for a in 0..size {
        for b in 0..size {
            if hb.has(a, b) && records[a].shares_location(&records[b]) {
                for from in stands_for(records, a) {
                    for to in stands_for(records, b) {
                        if from != to {
                            wb0.set(from, to);
                        }
                    }
                }
            }
        }
    }
    wb0
}

/// A write stands for itself, a read for its source, an update for both.
fn stands_for(records: &[Record], a: usize) -> impl Iterator<Item = usize> {
    [records[a].is_write().then_some(a), records[a].source].into_iter().flatten()
}

fn sc_steps(records: &[Record], po: &Matrix, hb: &Matrix, wb: &Matrix) -> Matrix {
    let size = records.len();
    let one_location = |a: usize, b: usize| records[a].shares_location(&records[b]);
    let apart = Matrix::of(size, |a, b| po.has(a, b) && !one_location(a, b));
    let around = apart.then(hb).then(&apart);
    Matrix::of(size, |a, b| {
        let hbsc = (hb.has(a, b) && one_location(a, b)) || apart.has(a, b) || around.has(a, b);
        let fr = a != b && records[a].source.is_some_and(|source| wb.has(source, b));
        records[a].order == Order::Sc && records[b].order == Order::Sc && (hbsc || wb.has(a, b) || fr)
    })
}

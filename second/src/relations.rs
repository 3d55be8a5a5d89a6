//! The relations of document 01, each as a matrix of bits filled by plain loops.

use crate::table::{Order, Record};
use crate::wrong::{is_asked, Way};

/// `matrix[a][b]`: a stands in the relation to b.
pub type Matrix = Vec<Vec<bool>>;

/// How many steps happens-before is followed: all, but for the judge that is wrong on purpose.
pub fn depth() -> usize {
    if is_asked(Way::TenSteps) {
        10
    } else {
        usize::MAX
    }
}

pub struct Relations {
    pub po: Matrix,
    pub cf: Matrix,
    pub sw: Matrix,
    pub hb: Matrix,
    pub race: Matrix,
    pub wb0: Matrix,
    pub wb: Matrix,
    pub fr: Matrix,
    pub po_apart: Matrix,
    pub hbsc: Matrix,
}

impl Relations {
    /// All relations; `depth` is `usize::MAX` but for the judge that is wrong on purpose.
    pub fn of(records: &[Record], depth: usize) -> Relations {
        let po = program_order(records);
        let sw = synchronises(records);
        let hb = happens_before(records, &po, &sw, depth);
        Relations::after(records, po, sw, hb)
    }

    /// All relations, where the first three are known.
    pub fn after(records: &[Record], po: Matrix, sw: Matrix, hb: Matrix) -> Relations {
        let cf = conflict(records, &po);
        let race = race(records, &hb, &cf);
        let wb0 = write_before_step(records, &hb);
        let wb = closure(&wb0);
        let fr = from_read(records, &wb);
        let po_apart = program_order_apart(records, &po);
        let hbsc = happens_before_sc(records, &hb, &po_apart);
        Relations { po, cf, sw, hb, race, wb0, wb, fr, po_apart, hbsc }
    }
}

/// The matrix of a question about two record numbers.
pub fn matrix(size: usize, holds: impl Fn(usize, usize) -> bool) -> Matrix {
    (0..size).map(|a| (0..size).map(|b| holds(a, b)).collect()).collect()
}

/// One or more steps.
pub fn closure(step: &Matrix) -> Matrix {
    let mut reached = step.clone();
    for middle in 0..step.len() {
        let beyond = reached[middle].clone();
        for row in reached.iter_mut().filter(|row| row[middle]) {
            join(row, &beyond);
        }
    }
    reached
}

/// One step of the first relation, then one of the second.
pub fn compose(first: &Matrix, second: &Matrix) -> Matrix {
    let both = |row: &Vec<bool>| {
        let mut reached = vec![false; row.len()];
        for middle in (0..row.len()).filter(|&middle| row[middle]) {
            join(&mut reached, &second[middle]);
        }
        reached
    };
    first.iter().map(both).collect()
}

/// Adds all that the other row holds: whole rows at once, as a table of 200 records has 8,000,000 triples.
fn join(row: &mut [bool], other: &[bool]) {
    for (here, there) in row.iter_mut().zip(other) {
        *here |= there;
    }
}

/// The relation from its end to its start.
pub fn turned(relation: &Matrix) -> Matrix {
    matrix(relation.len(), |a, b| relation[b][a])
}

/// "a before b if a is a proper ancestor of b"
fn program_order(records: &[Record]) -> Matrix {
    let mut po = vec![vec![false; records.len()]; records.len()];
    for b in 0..records.len() {
        let mut above = records[b].parent;
        while let Some(a) = above {
            po[a][b] = true;
            above = records[a].parent;
        }
    }
    po
}

/// "some a' equal to or above a, and b' equal to or above b, have one thread, differ, and neither
/// is above the other": from a up to a', across to b', and down to b.
fn conflict(records: &[Record], po: &Matrix) -> Matrix {
    let size = records.len();
    let down = matrix(size, |top, b| b == top || po[top][b]);
    let across =
        matrix(size, |a, b| a != b && records[a].thread == records[b].thread && !po[a][b] && !po[b][a]);
    compose(&compose(&turned(&down), &across), &down)
}

/// "from a releasing source to an acquiring read of it"
fn synchronises(records: &[Record]) -> Matrix {
    matrix(records.len(), |a, b| {
        records[b].source == Some(a) && records[a].order.releases() && records[b].order.acquires()
    })
}

/// "one or more steps of po or sw". The wrong judge takes steps from parent to child and of sw,
/// and no more of them than `depth`.
fn happens_before(records: &[Record], po: &Matrix, sw: &Matrix, depth: usize) -> Matrix {
    let size = records.len();
    if depth == usize::MAX {
        return closure(&matrix(size, |a, b| po[a][b] || sw[a][b]));
    }
    let step = matrix(size, |a, b| records[b].parent == Some(a) || sw[a][b]);
    let mut reached = step.clone();
    for _ in 1..depth {
        let further = compose(&reached, &step);
        reached = matrix(size, |a, b| reached[a][b] || further[a][b]);
    }
    reached
}

/// "two different records of one location, at least one a write, at least one NA, neither hb the
/// other, not in conflict"
fn race(records: &[Record], hb: &Matrix, cf: &Matrix) -> Matrix {
    matrix(records.len(), |a, b| {
        a != b
            && records[a].shares_location(&records[b])
            && (records[a].is_write() || records[b].is_write())
            && (records[a].order == Order::Na || records[b].order == Order::Na)
            && !hb[a][b]
            && !hb[b][a]
            && !cf[a][b]
    })
}

/// "from write w to a different write w' of one location, if w or a reader of w is hb before w' or
/// a reader of w'"
fn write_before_step(records: &[Record], hb: &Matrix) -> Matrix {
    let size = records.len();
    let to_reader = matrix(size, |w, r| r == w || records[r].source == Some(w));
    let before = compose(&compose(&to_reader, hb), &turned(&to_reader));
    matrix(size, |w, later| {
        w != later
            && records[w].is_write()
            && records[later].is_write()
            && records[w].shares_location(&records[later])
            && before[w][later]
    })
}

/// "from a read to a write that its source is wb before, the read itself excepted"
fn from_read(records: &[Record], wb: &Matrix) -> Matrix {
    matrix(records.len(), |read, write| match records[read].source {
        Some(source) => wb[source][write] && read != write,
        None => false,
    })
}

/// "po between two records that don't both have one and the same location (Init has none)"
fn program_order_apart(records: &[Record], po: &Matrix) -> Matrix {
    matrix(records.len(), |a, b| po[a][b] && !records[a].shares_location(&records[b]))
}

/// "between SC records: hb at one location; or po≠; or po≠, then hb, then po≠"
fn happens_before_sc(records: &[Record], hb: &Matrix, po_apart: &Matrix) -> Matrix {
    let around = compose(&compose(po_apart, hb), po_apart);
    matrix(records.len(), |a, b| {
        records[a].order == Order::Sc
            && records[b].order == Order::Sc
            && ((hb[a][b] && records[a].shares_location(&records[b])) || po_apart[a][b] || around[a][b])
    })
}

//! The seven findings with their least witnesses, the verdict, and what stands on a race.

use crate::cycles::least_cycle;
use crate::relations::{matrix, Matrix, Relations};
use crate::table::{Kind, Order, Record};
use crate::wrong::{is_asked, Way};

/// Their names, in the report's order.
pub const FINDINGS: [&str; 7] = ["R", "A1", "A2", "A3", "A4", "A5", "W"];

#[derive(Clone, Debug, PartialEq, Eq)]
pub struct Findings {
    pub r: Option<usize>,
    pub a1: Option<Vec<usize>>,
    pub a2: Option<(usize, usize)>,
    pub a3: Option<(usize, usize)>,
    pub a4: Option<Vec<usize>>,
    pub a5: Option<(usize, usize)>,
    pub w: Option<(usize, usize)>,
}

#[derive(Clone, Copy, Debug, PartialEq, Eq)]
pub enum Verdict {
    Consistent,
    Inconsistent,
    Undefined,
}

/// Their names, in the order of `Verdict`.
pub const VERDICTS: [&str; 3] = ["consistent", "inconsistent", "undefined"];

impl Findings {
    /// "All six are judged always." With A5 of request W2 they are seven.
    pub fn of(records: &[Record], rel: &Relations) -> Findings {
        let size = records.len();
        Findings {
            r: (0..size).find(|&read| records[read].is_read() && !justified(records, rel, read)),
            a1: least_cycle(&rel.wb0),
            a2: least_pair(size, |p, q| rel.cf[p][q] && rel.hb[p][q]),
            a3: least_pair(size, |first, second| match (records[first].source, records[second].source) {
                (Some(one), Some(other)) => rel.hb[first][second] && rel.cf[one][other],
                _ => false,
            }),
            a4: least_cycle(&sc_steps(records, rel)),
            a5: least_pair(size, |p, q| p < q && took_one_token(records, rel, p, q)),
            w: least_pair(size, |p, q| {
                p < q && records[p].is_write() && records[q].is_write() && rel.race[p][q]
            }),
        }
    }

    /// Which of the seven hold, in the report's order.
    pub fn held(&self) -> [bool; FINDINGS.len()] {
        [
            self.r.is_some(),
            self.a1.is_some(),
            self.a2.is_some(),
            self.a3.is_some(),
            self.a4.is_some(),
            self.a5.is_some(),
            self.w.is_some(),
        ]
    }

    /// "undefined if W holds, else inconsistent if any other does, else consistent"
    pub fn verdict(&self) -> Verdict {
        let others = self.r.is_some()
            || self.a1.is_some()
            || self.a2.is_some()
            || self.a3.is_some()
            || self.a4.is_some()
            || self.a5.is_some();
        if self.w.is_some() {
            Verdict::Undefined
        } else if others {
            Verdict::Inconsistent
        } else {
            Verdict::Consistent
        }
    }
}

/// "no write earlier in the table races with it": those that do.
fn earlier_racing_writes(records: &[Record], rel: &Relations, read: usize) -> Vec<usize> {
    (0..read).filter(|&w| records[w].is_write() && rel.race[w][read]).collect()
}

/// "some write of its location is hb before it"
fn a_write_is_before(records: &[Record], rel: &Relations, read: usize) -> bool {
    (0..records.len())
        .any(|w| records[w].is_write() && records[w].shares_location(&records[read]) && rel.hb[w][read])
}

fn justified(records: &[Record], rel: &Relations, read: usize) -> bool {
    let no_race = earlier_racing_writes(records, rel, read).is_empty();
    match records[read].source {
        Some(source) => rel.hb[source][read] && no_race,
        None => !a_write_is_before(records, rel, read) || !no_race,
    }
}

/// The racing writes of a read that *stands on a race*; empty for every other record.
pub fn racing_writes_stood_on(records: &[Record], rel: &Relations, read: usize) -> Vec<usize> {
    let has_ground =
        records[read].is_read() && records[read].source.is_none() && a_write_is_before(records, rel, read);
    if has_ground {
        earlier_racing_writes(records, rel, read)
    } else {
        Vec::new()
    }
}

/// "two different updates, not in conflict, have the same source". Two that read u from nothing took
/// no token.
fn took_one_token(records: &[Record], rel: &Relations, p: usize, q: usize) -> bool {
    let in_conflict = rel.cf[p][q] && !is_asked(Way::UpdatesInConflict);
    let both_updates = records[p].kind == Kind::Update && records[q].kind == Kind::Update;
    let one_source = records[p].source.is_some() && records[p].source == records[q].source;
    p != q && both_updates && one_source && !in_conflict
}

/// "hbsc, wb and fr together, among SC records"
pub fn sc_steps(records: &[Record], rel: &Relations) -> Matrix {
    matrix(records.len(), |a, b| {
        records[a].order == Order::Sc
            && records[b].order == Order::Sc
            && (rel.hbsc[a][b] || rel.wb[a][b] || rel.fr[a][b])
    })
}

/// "Pairs are compared by the first number, then the second"
fn least_pair(size: usize, fits: impl Fn(usize, usize) -> bool) -> Option<(usize, usize)> {
    for p in 0..size {
        for q in 0..size {
            if fits(p, q) {
                return Some((p, q));
            }
        }
    }
    None
}

//! The plain judge: simple loops over flat byte matrices, as somebody would write who wants the answer and no proof.
//!
//! Reading a table and writing the lines is the second judge's.

use crate::plain_cycle::least_cycle;
use crate::plain_relations::Relations;
use second::findings::Findings;
use second::report::Report;
use second::table::{read_table, Kind, Record};
use second::text::answer_lines;

/// The lines of the answer to a table.
pub fn judge(table: &[u8]) -> String {
    let report = |records: Vec<Record>| Report { events: records.len(), findings: find(&records) };
    answer_lines(read_table(table).map(report))
}

fn find(records: &[Record]) -> Findings {
    let size = records.len();
    let relations = Relations::of(records);
    let Relations { cf, hb, race, wb0, sc } = &relations;
    let both_write = |p: usize, q: usize| records[p].is_write() && records[q].is_write();
    Findings {
        r: (0..size).find(|&read| records[read].is_read() && !is_justified(records, &relations, read)),
        a1: least_cycle(wb0),
        a2: least_pair(size, |p, q| cf.has(p, q) && hb.has(p, q)),
        a3: least_pair(size, |p, q| match (records[p].source, records[q].source) {
            (Some(one), Some(other)) => hb.has(p, q) && cf.has(one, other),
            _ => false,
        }),
        a4: least_cycle(sc),
        a5: least_pair(size, |p, q| p < q && have_one_source(records, p, q) && !cf.has(p, q)),
        w: least_pair(size, |p, q| p < q && both_write(p, q) && race.has(p, q)),
    }
}

fn is_justified(records: &[Record], relations: &Relations, read: usize) -> bool {
    let Relations { hb, race, .. } = relations;
    let raced = (0..read).any(|w| records[w].is_write() && race.has(w, read));
    let written =
        |w: usize| records[w].is_write() && records[w].shares_location(&records[read]) && hb.has(w, read);
    match records[read].source {
        Some(source) => hb.has(source, read) && !raced,
        None => raced || !(0..records.len()).any(written),
    }
}

/// Whether both are updates, of one and the same source.
fn have_one_source(records: &[Record], p: usize, q: usize) -> bool {
    let source = |n: usize| records[n].source.filter(|_| records[n].kind == Kind::Update);
    source(p).is_some() && source(p) == source(q)
}

fn least_pair(size: usize, fits: impl Fn(usize, usize) -> bool) -> Option<(usize, usize)> {
    for p in 0..size {
        for q in 0..size {
            if fits(p, q) {
                return Some((p, q));
            }
        }
    }
    None
}

//! Counting what tables hold of updates that read one source, which finding A5 is about.

use crate::relations::Relations;
use crate::table::{read_table, Kind, Record};

/// Records are far apart if their numbers differ by more.
const FAR: usize = 50;

/// A table and the least pair that its answer names for A5, with what the classes ask of it.
struct Judged {
    records: Vec<Record>,
    relations: Relations,
    updates: Vec<usize>,
    /// Each two updates of one source, the earlier first.
    pairs: Vec<(usize, usize)>,
    least: Option<(usize, usize)>,
}

/// What tables are asked to show, each at least once.
const CLASSES: [(&str, fn(&Judged) -> bool); 12] = [
    ("updates of one source apart", |t| t.pairs.iter().any(|&(p, q)| !t.relations.cf[p][q])),
    ("updates of one source in conflict, no A5", |t| t.least.is_none() && !t.pairs.is_empty()),
    ("updates of one source far apart", |t| t.least.is_some_and(|(p, q)| q - p > FAR)),
    ("updates of one source far apart in conflict, no A5", |t| {
        t.least.is_none() && t.pairs.iter().any(|&(p, q)| q - p > FAR)
    }),
    ("three updates of one source", |t| t.updates.iter().any(|&n| t.earlier_takers(n) == 2)),
    ("three updates of one source, no A5", |t| {
        t.least.is_none() && t.updates.iter().any(|&n| t.earlier_takers(n) == 2)
    }),
    ("A5 not at the first two updates of its source", |t| {
        t.least.is_some_and(|(_, q)| t.earlier_takers(q) > 1)
    }),
    ("one update above another of its source", |t| t.pairs.iter().any(|&(p, q)| t.relations.po[p][q])),
    ("load and update of one source, no A5", |t| t.least.is_none() && t.a_load_shares_a_token()),
    ("updates without source, no A5", |t| {
        t.least.is_none() && t.updates.iter().filter(|&&n| t.records[n].source.is_none()).count() > 1
    }),
    ("updates of one value from two sources, no A5", |t| t.least.is_none() && t.tokens_are_alike()),
    ("a lock that holds", |t| t.least.is_none() && t.takes_in_a_row() >= 20),
];

/// The classes that a table is in, by its answer; none if it is refused.
pub fn reached_by_updates(table: &[u8], answer: &[String]) -> Vec<String> {
    let Ok(records) = read_table(table) else { return Vec::new() };
    let judged = Judged::of(records, least_pair_in(answer));
    let reached = CLASSES.iter().filter(|(_, holds)| holds(&judged));
    reached.map(|(class, _)| class.to_string()).collect()
}

/// What judged tables should reach.
pub fn required_of_updates() -> Vec<String> {
    CLASSES.iter().map(|(class, _)| class.to_string()).collect()
}

fn least_pair_in(answer: &[String]) -> Option<(usize, usize)> {
    let numbers = answer.iter().find_map(|line| line.strip_prefix("A5 "))?;
    let (p, q) = numbers.split_once(' ')?;
    Some((p.parse().ok()?, q.parse().ok()?))
}

impl Judged {
    fn of(records: Vec<Record>, least: Option<(usize, usize)>) -> Judged {
        let relations = Relations::of(&records, usize::MAX);
        let updates: Vec<usize> = (0..records.len()).filter(|&n| records[n].kind == Kind::Update).collect();
        let one_source =
            |p: usize, q: usize| records[p].source.is_some() && records[p].source == records[q].source;
        let mut pairs = Vec::new();
        for &q in &updates {
            pairs.extend(updates.iter().filter(|&&p| p < q && one_source(p, q)).map(|&p| (p, q)));
        }
        Judged { records, relations, updates, pairs, least }
    }

    /// How many updates before this one read its source.
    fn earlier_takers(&self, update: usize) -> usize {
        self.pairs.iter().filter(|&&(_, q)| q == update).count()
    }

    fn a_load_shares_a_token(&self) -> bool {
        let mut loads = self.records.iter().filter(|r| r.kind == Kind::Load && r.source.is_some());
        loads.any(|load| self.updates.iter().any(|&n| self.records[n].source == load.source))
    }

    /// Two updates of one location read one value from different sources.
    fn tokens_are_alike(&self) -> bool {
        let alike = |one: &Record, other: &Record| {
            let both_taken = one.source.is_some() && other.source.is_some() && one.source != other.source;
            both_taken && one.shares_location(other) && one.read == other.read
        };
        let with_another =
            |&p: &usize| self.updates.iter().any(|&q| alike(&self.records[p], &self.records[q]));
        self.updates.iter().any(with_another)
    }

    /// The most updates in a row, each the source of the next one, which is in another thread.
    fn takes_in_a_row(&self) -> usize {
        let mut longest = vec![0; self.records.len()];
        for &update in &self.updates {
            let before = self.records[update].source;
            let handed_on = |&token: &usize| self.records[token].thread != self.records[update].thread;
            longest[update] = 1 + before.filter(handed_on).map_or(0, |token| longest[token]);
        }
        longest.into_iter().max().unwrap_or(0)
    }
}

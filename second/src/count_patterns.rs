//! Counting which patterns are among judged tables, by what the tables are, as built and in another order.

use crate::findings::FINDINGS;
use crate::large_gadgets::Pattern;
use crate::table::RECORD_BYTES;

/// A pattern, and its records without their links, in an order of their own: those of a table tell whether it is the
/// same pattern in another order.
struct Known {
    pattern: Pattern,
    records: Vec<Vec<u8>>,
}

/// The patterns that are looked for.
pub struct KnownPatterns(Vec<Known>);

fn without_links(table: &[u8]) -> Vec<Vec<u8>> {
    let mut records: Vec<Vec<u8>> = table.chunks(RECORD_BYTES).map(|record| record.to_vec()).collect();
    records.iter_mut().for_each(|record| record[5..7].fill(0));
    records.sort();
    records
}

const AS_BUILT: &str = "as built";
const IN_ANOTHER_ORDER: &str = "in another order";

fn pattern_class(pattern: &Pattern, order: &str) -> String {
    format!("{} of {} records, {order}", pattern.name, pattern.table.len())
}

impl KnownPatterns {
    pub fn of(patterns: Vec<Pattern>) -> KnownPatterns {
        let known = |pattern: Pattern| {
            let records = without_links(&pattern.table.concat());
            Known { pattern, records }
        };
        KnownPatterns(patterns.into_iter().map(known).collect())
    }

    /// The pattern that a judged table is, if the answer shows what the pattern is made for.
    pub fn reached(&self, table: &[u8], answer: &[String]) -> Vec<String> {
        let is_as_long = |known: &Known| RECORD_BYTES * known.records.len() == table.len();
        if !self.0.iter().any(is_as_long) {
            return Vec::new();
        }
        let records = without_links(table);
        let is_shown = |known: &&Known| known.records == records && shows(answer, &known.pattern);
        let class = |known: &Known| {
            let is_as_built = known.pattern.table.concat() == table;
            pattern_class(&known.pattern, if is_as_built { AS_BUILT } else { IN_ANOTHER_ORDER })
        };
        self.0.iter().filter(is_shown).map(class).collect()
    }

    /// Every pattern as it is built.
    pub fn required_as_built(&self) -> Vec<String> {
        self.0.iter().map(|known| pattern_class(&known.pattern, AS_BUILT)).collect()
    }

    /// The patterns whose records can be listed otherwise.
    pub fn required_in_another_order(&self) -> Vec<String> {
        let relisted = self.0.iter().filter(|known| known.pattern.can_be_relisted);
        relisted.map(|known| pattern_class(&known.pattern, IN_ANOTHER_ORDER)).collect()
    }
}

/// Whether just the findings of the pattern hold, with a cycle of its length if it has one.
fn shows(answer: &[String], pattern: &Pattern) -> bool {
    let line_of = |name: &str| answer.iter().find(|line| line.starts_with(&format!("{name} ")));
    let is_right = |name: &&str| {
        line_of(name).is_some_and(|line| line.ends_with(" none") != pattern.findings.contains(name))
    };
    let is_long = |(name, length)| line_of(name).is_some_and(|line| line.split(' ').count() == 1 + length);
    FINDINGS.iter().all(is_right) && pattern.cycle.is_none_or(is_long)
}

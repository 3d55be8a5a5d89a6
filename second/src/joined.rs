//! Pairs of batches to be joined, from a seed, and where request W3 asks for their sums.

use crate::ask_figures::figures_random;
use crate::batch::{read_batch, MOST_BYTES};
use std::collections::BTreeSet;

/// What the choice of pairs asks of a batch.
struct Side {
    length: usize,
    tables: usize,
    /// The number of the refusal that ended it, 0 if it ended cleanly.
    ended: u8,
}

const CLEAN: u8 = 0;
/// Large pairs take long, and are made for the limit only.
const SMALL: usize = 20_000;

/// How many pairs of each class, and what is in it.
type Class = (usize, fn(&Side, &Side) -> bool);
const CLASSES: [Class; 17] = [
    (32, |a, b| small(a, b) && a.tables > 0 && b.tables > 0 && b.ended == CLEAN),
    (32, |a, b| small(a, b) && a.tables > 0 && b.tables > 0 && b.ended == 14),
    (32, |a, b| small(a, b) && a.tables > 0 && b.tables > 0 && b.ended == 15),
    (4, |a, b| small(a, b) && a.tables == 0 && b.ended == CLEAN),
    (4, |a, b| small(a, b) && a.tables == 0 && b.ended == 14),
    (4, |a, b| small(a, b) && a.tables == 0 && b.ended == 15),
    (4, |a, b| small(a, b) && a.tables > 0 && b.tables == 0 && b.ended == CLEAN),
    (4, |a, b| small(a, b) && a.tables > 0 && b.tables == 0 && b.ended == 14),
    (4, |a, b| small(a, b) && a.tables > 0 && b.tables == 0 && b.ended == 15),
    (3, |a, b| large(a, b) && a.length + b.length == MOST_BYTES - 1),
    (3, |a, b| large(a, b) && a.length + b.length == MOST_BYTES && b.ended == CLEAN),
    (3, |a, b| large(a, b) && a.length + b.length == MOST_BYTES && b.ended == 14),
    (3, |a, b| large(a, b) && a.length + b.length == MOST_BYTES && b.ended == 15),
    (4, |a, b| a.ended == CLEAN && a.length + b.length == MOST_BYTES && a.length.min(b.length) < 2),
    (4, |a, b| a.ended == CLEAN && a.length + b.length == MOST_BYTES + 1 && b.ended != 1),
    (4, |a, b| a.ended == CLEAN && a.length + b.length > MOST_BYTES + 1),
    (10, |a, b| a.ended != CLEAN && a.length + b.length < SMALL),
];

fn small(a: &Side, b: &Side) -> bool {
    a.ended == CLEAN && a.length + b.length < SMALL
}

fn large(a: &Side, b: &Side) -> bool {
    a.ended == CLEAN && a.length > SMALL && b.length > SMALL
}

/// The numbers of the batches to be joined, each pair once.
pub fn pairs(seed: u64, batches: &[Vec<u8>]) -> Vec<(usize, usize)> {
    let mut random = figures_random(seed.rotate_left(32));
    let sides: Vec<Side> = batches.iter().map(|bytes| side(bytes)).collect();
    let mut chosen = BTreeSet::new();
    for (count, fits) in CLASSES {
        let numbers = 0..sides.len();
        let mut left: Vec<(usize, usize)> = numbers
            .clone()
            .flat_map(|a| numbers.clone().map(move |b| (a, b)))
            .filter(|&(a, b)| fits(&sides[a], &sides[b]))
            .collect();
        for _ in 0..count.min(left.len()) {
            chosen.insert(left.swap_remove(random.below(left.len())));
        }
    }
    chosen.into_iter().collect()
}

fn side(bytes: &[u8]) -> Side {
    let batch = read_batch(bytes);
    let ended = batch.refusal.map_or(CLEAN, |refusal| refusal.number);
    Side { length: bytes.len(), tables: batch.tables.len(), ended }
}

/// "if the first ended cleanly and the whole is within W1's limit"
pub fn sums_are_due(first: &[u8], second: &[u8]) -> bool {
    side(first).ended == CLEAN && first.len() + second.len() <= MOST_BYTES
}

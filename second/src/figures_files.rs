//! Whole batches for the program that counts figures: those of `batch_files`, then further ones.

use crate::ask_figures::figures_random;
use crate::batch::MOST_BYTES;
use crate::batch_files::{batch_files, filled};
use crate::examples::example;
use crate::figures::TABLE_REFUSALS;
use crate::gadgets::far_read;
use crate::pack::{ending_bytes, pack, refused_table, Ending};
use crate::random::Random;
use crate::table::MOST_RECORDS;

/// The size of the first batch of a pair that meets the limit.
const HALF: usize = MOST_BYTES / 2;

pub fn figures_files(seed: u64) -> Vec<Vec<u8>> {
    // Other chances than those of the questions about figures.
    let mut random = figures_random(!seed);
    let mut list = batch_files(seed);
    list.extend(refusals_by_number(&mut random));
    list.extend(findings_and_verdicts());
    list.extend(largest_tables());
    list.extend(halves(&mut random));
    list
}

/// Each refusal number several times, and all of them, each another number of times: lines that change places show.
fn refusals_by_number(random: &mut Random) -> Vec<Vec<u8>> {
    let mut times = |number: usize, count: usize| -> Vec<Vec<u8>> {
        (0..count).map(|_| refused_table(random, number as u8)).collect()
    };
    let mut list = Vec::new();
    for number in 1..=TABLE_REFUSALS {
        let mut tables = times(number, 2 + number % 3);
        tables.insert(1, example("E4"));
        list.push(pack(&tables));
    }
    let all: Vec<Vec<u8>> = (1..=TABLE_REFUSALS).flat_map(|number| times(number, number)).collect();
    list.push(pack(&all));
    list
}

/// An example of each finding, each another number of times, and each verdict likewise, one after another and in turn.
fn findings_and_verdicts() -> Vec<Vec<u8>> {
    let names = ["E1", "E6", "E9", "E2", "E10", "E3", "E11", "E5"];
    let in_a_row: Vec<Vec<u8>> =
        names.iter().enumerate().flat_map(|(n, name)| vec![example(name); n + 1]).collect();
    let in_turn: Vec<Vec<u8>> =
        (0..names.len()).flat_map(|n| &names[n..]).map(|name| example(name)).collect();
    vec![pack(&in_a_row), pack(&in_turn)]
}

/// The largest table at each place, twice, and beside a refused one that is longer.
fn largest_tables() -> Vec<Vec<u8>> {
    let whole = |size: usize| far_read(size).concat();
    // Refused at its last record.
    let refused = |size: usize| {
        let mut table = whole(size);
        table[16 * (size - 1)] ^= 1;
        table
    };
    let full = MOST_RECORDS;
    vec![
        pack(&[whole(full), example("E1"), example("E2")]),
        pack(&[example("E1"), whole(full), example("E2")]),
        pack(&[example("E1"), example("E2"), whole(full)]),
        pack(&[whole(full - 1), whole(full), whole(full - 1), whole(full)]),
        pack(&[whole(full - 1), refused(full)]),
        pack(&[refused(full), whole(full - 1)]),
        pack(&[whole(full), whole(full + 1)]),
        pack(&[whole(full + 1), example("E1")]),
        pack(&[refused(3), whole(3), refused(4)]),
        pack(&[refused(full)]),
    ]
}

/// A first batch, and second ones that make with it one byte less than the limit, the limit, and one byte more.
fn halves(random: &mut Random) -> Vec<Vec<u8>> {
    let mut list = vec![filled(random, HALF)];
    for whole in [MOST_BYTES - 1, MOST_BYTES, MOST_BYTES + 1] {
        for ending in [Ending::Clean, Ending::WrongMark, Ending::ShortTable(1)] {
            let end = ending_bytes(random, ending);
            list.push([filled(random, whole - HALF - end.len()), end].concat());
        }
    }
    list
}

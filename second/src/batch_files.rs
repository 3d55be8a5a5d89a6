//! Whole batches for the program that reads one, from a seed: endings, sizes, refusals and findings.

use crate::ask_bytes::damaged_batches;
use crate::ask_large::large_random;
use crate::batch::{HEADER_BYTES, MOST_BYTES};
use crate::examples::{example, examples};
use crate::gadgets::{finding_sets, sized_tables};
use crate::generate::{any_size_table, any_table};
use crate::grow::shuffle;
use crate::large_gadgets::{patterns, Pattern, SIZES};
use crate::pack::{ending_bytes, header, pack, refused_table, Ending, ENDINGS};
use crate::random::Random;
use crate::table::{MOST_RECORDS, RECORD_BYTES};

pub fn batch_files(seed: u64) -> Vec<Vec<u8>> {
    let mut random = Random::new(seed);
    let mut list = packed_examples();
    list.extend(many_tables());
    list.extend(each_refusal(&mut random));
    list.extend(each_finding(&mut random));
    list.extend(cut_off());
    list.extend(damaged_marks());
    list.extend(damaged_lengths());
    list.extend(each_ending(&mut random));
    list.extend(around_the_limit(&mut random));
    list.extend(grown_batches(&mut random));
    list.extend(damaged_batches(seed));
    list.extend(large_tables(seed));
    list
}

/// The empty batch, each example alone, and all of them.
fn packed_examples() -> Vec<Vec<u8>> {
    let tables: Vec<Vec<u8>> = examples().into_iter().map(|e| e.bytes).collect();
    let mut list = vec![Vec::new()];
    list.extend(tables.iter().map(|table| pack(&[table])));
    list.push(pack(&tables));
    list
}

/// As many tables as a batch can hold, of no bytes and of one record; and hundreds of several sizes.
fn many_tables() -> Vec<Vec<u8>> {
    let (empty, one, two) = (Vec::new(), example("E1"), example("E7"));
    let several: Vec<&Vec<u8>> = [&one, &empty, &two].into_iter().cycle().take(500).collect();
    vec![pack(&vec![&empty; 15_000]), pack(&vec![&one; 3_000]), pack(&several)]
}

/// A table of each refusal number between good ones, and all numbers in one batch.
fn each_refusal(random: &mut Random) -> Vec<Vec<u8>> {
    let mut list = Vec::new();
    for number in 1..=8 {
        let one = refused_table(random, number);
        list.push(pack(&[example("E3"), one, example("E9")]));
    }
    let all: Vec<Vec<u8>> = (1..=8).map(|number| refused_table(random, number)).collect();
    list.push(pack(&all));
    for length in [1, 15, 17, 255, 256, 257, 1023, 1024, 1025, 1040, 3199, 3200, 3201, 3215, 3216] {
        list.push(pack(&[example("E1"), vec![0x45; length], example("E5")]));
    }
    list
}

/// Each set of findings, and each pattern in each of its sizes, its records in any order.
fn each_finding(random: &mut Random) -> Vec<Vec<u8>> {
    let tables: Vec<Vec<u8>> =
        finding_sets().iter().chain(&sized_tables()).map(|table| shuffle(random, table).concat()).collect();
    tables.chunks(20).map(pack).collect()
}

/// Every large pattern, in another order where there is one: more than ten files, as a tenth of all should have one;
/// and as many full tables as fit.
fn large_tables(seed: u64) -> Vec<Vec<u8>> {
    let mut random = large_random(seed.rotate_left(16));
    let mut any_order = |pattern: &Pattern| match pattern.can_be_relisted {
        true => pattern.relisted(&mut random).concat(),
        false => pattern.table.concat(),
    };
    let tables: Vec<Vec<u8>> =
        SIZES.into_iter().flat_map(patterns).map(|pattern| any_order(&pattern)).collect();
    let mut list: Vec<Vec<u8>> = tables.chunks(tables.len() / 10).map(pack).collect();
    let fit = MOST_BYTES / (HEADER_BYTES + RECORD_BYTES * MOST_RECORDS);
    let full: Vec<Vec<u8>> = patterns(MOST_RECORDS).iter().map(|pattern| pattern.table.concat()).collect();
    list.push(pack(&full.iter().cycle().take(fit).collect::<Vec<_>>()));
    list
}

/// Three small tables, the batch that is damaged below, and where each header begins.
fn three_tables() -> (Vec<u8>, [usize; 3]) {
    let tables = [example("E7"), vec![1, 2, 3], example("E1")];
    let second = HEADER_BYTES + tables[0].len();
    (pack(&tables), [0, second, second + HEADER_BYTES + tables[1].len()])
}

/// Cut off at every length.
fn cut_off() -> Vec<Vec<u8>> {
    let (batch, _) = three_tables();
    (0..=batch.len()).map(|length| batch[..length].to_vec()).collect()
}

/// Each byte of each mark changed.
fn damaged_marks() -> Vec<Vec<u8>> {
    let (batch, headers) = three_tables();
    let mut list = Vec::new();
    for place in headers.into_iter().flat_map(|header| [header, header + 1]) {
        for change in [0x01, 0x80, 0x16, 0xff] {
            let mut damaged = batch.clone();
            damaged[place] ^= change;
            list.push(damaged);
        }
    }
    list
}

/// Each length made too large and too small, by little and by much, and its two bytes exchanged.
fn damaged_lengths() -> Vec<Vec<u8>> {
    let (batch, headers) = three_tables();
    let mut list = Vec::new();
    for place in headers {
        let right = u16::from_le_bytes([batch[place + 2], batch[place + 3]]);
        let larger = [right + 1, right + 4, right + 256, u16::MAX];
        let smaller = [right - 1, right / 2, 0];
        for length in larger.into_iter().chain(smaller).chain([right.swap_bytes()]) {
            let mut damaged = batch.clone();
            damaged[place..place + HEADER_BYTES].copy_from_slice(&header(length));
            list.push(damaged);
        }
    }
    list
}

/// Each ending at the first header, after one table and after two, three times by chance.
fn each_ending(random: &mut Random) -> Vec<Vec<u8>> {
    let mut list = Vec::new();
    for tables in [vec![], vec![example("E1")], vec![example("E2"), example("E3")]] {
        for ending in ENDINGS.into_iter().cycle().take(3 * ENDINGS.len()) {
            list.push([pack(&tables), ending_bytes(random, ending)].concat());
        }
    }
    list
}

/// Sizes around the limit, which would end cleanly, in 14 and in both kinds of 15.
fn around_the_limit(random: &mut Random) -> Vec<Vec<u8>> {
    let mut list = Vec::new();
    for size in [59_999, 60_000, 60_001, 60_004, 70_000] {
        for ending in [Ending::Clean, Ending::WrongMark, Ending::ShortHeader(3), Ending::ShortTable(1)] {
            let end = ending_bytes(random, ending);
            list.push([filled(random, size - end.len()), end].concat());
        }
    }
    list
}

/// Whole tables that take exactly so many bytes with their headers: grown ones at the front and at
/// the back, and in the middle and last of all one of any length.
pub fn filled(random: &mut Random, size: usize) -> Vec<u8> {
    let mut grown = |count: usize| -> Vec<u8> {
        let tables: Vec<Vec<u8>> = (0..count).map(|_| any_table(random).concat()).collect();
        pack(&tables)
    };
    let (front, back) = (grown(10), grown(10));
    let last = pack(&[[0x54; 99]]);
    let middle = size - front.len() - back.len() - last.len() - HEADER_BYTES;
    [front, pack(&[vec![0x45; middle]]), back, last].concat()
}

/// Tables of any shape with any ending, some with a byte changed anywhere; and bytes by chance.
fn grown_batches(random: &mut Random) -> Vec<Vec<u8>> {
    let mut list = Vec::new();
    for number in 0..80 {
        let tables: Vec<Vec<u8>> =
            (0..1 + random.below(6)).map(|_| any_size_table(random).concat()).collect();
        let ending = random.pick(&ENDINGS);
        let mut batch = [pack(&tables), ending_bytes(random, ending)].concat();
        if number % 4 == 0 {
            let place = random.below(batch.len());
            batch[place] = random.byte();
        }
        list.push(batch);
    }
    for length in [4, 5, 20, 100, 5000] {
        list.push((0..length).map(|_| random.byte()).collect());
    }
    list
}

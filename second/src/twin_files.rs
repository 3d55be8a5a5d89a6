//! Inputs for the twin, from a seed: small tables of every kind and damage, and inputs around its limit.

use crate::damage::{damage, scatter};
use crate::damage_bytes::{one_byte_damaged, two_bytes_damaged, Table};
use crate::examples::examples;
use crate::gadgets::{far_read, finding_sets, sized_tables};
use crate::generate::{grown_on_findings, grown_to};
use crate::grow::{grow, shuffle, PROFILES};
use crate::random::Random;
use crate::record::Bytes;
use crate::table::MOST_RECORDS;
use crate::twin::{MOST_TWIN_BYTES, MOST_TWIN_RECORDS as FULL};
use crate::twin_gadgets::twin_patterns;
use crate::twin_rings::tables_of_two_rings;
use std::collections::BTreeSet;

/// Lengths within the limit of the twin, and above it: around both limits, and around what sixteen bits can tell.
pub const LENGTHS_WITHIN: [usize; 11] = [0, 1, 15, 16, 17, 31, 32, 33, 368, 383, 384];
pub const LENGTHS_ABOVE: [usize; 14] =
    [385, 399, 400, 401, 768, 1024, 3199, 3200, 3201, 3216, 65_535, 65_536, 65_552, 70_000];

/// Chances of their own for the twin's inputs, so that all else of a seed stays what it is.
fn twin_random(seed: u64) -> Random {
    Random::new(seed ^ u64::from_be_bytes(*b"\0TWIN 24"))
}

pub fn twin_files(seed: u64) -> Vec<Vec<u8>> {
    let mut random = twin_random(seed);
    let mut list: Vec<Vec<u8>> = examples().into_iter().map(|e| e.bytes).collect();
    list.extend(of_each_length());
    list.extend(full_and_a_byte(&mut random));
    list.extend(small_gadgets(&mut random));
    list.extend(full_patterns(&mut random));
    list.extend(rings(&mut random));
    list.extend(grown_tables(&mut random));
    list.extend(each_refusal(&mut random));
    list.extend(damaged_bytes(&mut random));
    let mut seen = BTreeSet::new();
    list.retain(|bytes| seen.insert(bytes.clone()));
    list
}

/// The bytes of a sound table cut off at each length, and zeros of each length. Above the judge's limit they are more
/// records of the same kind.
fn of_each_length() -> Vec<Vec<u8>> {
    let sound = far_read(MOST_RECORDS).concat();
    let cut_off = |length: usize| -> Vec<u8> { sound.iter().copied().cycle().take(length).collect() };
    let lengths = LENGTHS_WITHIN.into_iter().chain(LENGTHS_ABOVE);
    lengths.flat_map(|length| [cut_off(length), vec![0; length]]).collect()
}

/// Full tables of every profile with one byte more, of any value: who reads no further than the limit takes them.
fn full_and_a_byte(random: &mut Random) -> Vec<Vec<u8>> {
    let mut and_a_byte = |profile| {
        let mut bytes = grow(random, &profile, Vec::new(), FULL).concat();
        bytes.push(random.byte());
        bytes
    };
    PROFILES.into_iter().map(&mut and_a_byte).collect()
}

/// The sets of findings and the sized patterns that are small enough, as built and in two other orders.
fn small_gadgets(random: &mut Random) -> Vec<Vec<u8>> {
    let mut list = Vec::new();
    for table in finding_sets().into_iter().chain(sized_tables()).filter(|table| table.len() <= FULL) {
        list.push(table.concat());
        list.extend((0..2).map(|_| shuffle(random, &table).concat()));
    }
    list
}

/// The patterns of 24 records, as built and in another order if there is one.
fn full_patterns(random: &mut Random) -> Vec<Vec<u8>> {
    let mut list = Vec::new();
    for pattern in twin_patterns() {
        list.push(pattern.table.concat());
        let table =
            if pattern.can_be_relisted { pattern.relisted(random) } else { shuffle(random, &pattern.table) };
        list.push(table.concat());
    }
    list
}

/// Two rings in a table, as built, and with more records grown around them, in another order.
fn rings(random: &mut Random) -> Vec<Vec<u8>> {
    let mut list = Vec::new();
    for table in tables_of_two_rings(FULL) {
        list.push(table.concat());
        let profile = random.pick(&PROFILES);
        let grown = grow(random, &profile, table, FULL);
        list.push(shuffle(random, &grown).concat());
    }
    list
}

/// Tables of every size and profile, full ones of every profile, and findings with more records around them.
fn grown_tables(random: &mut Random) -> Vec<Vec<u8>> {
    let mut list = Vec::new();
    let sizes = (1..=FULL).chain([FULL; 5]);
    for (size, profile) in sizes.flat_map(|size| PROFILES.map(|profile| (size, profile))) {
        let table = grow(random, &profile, Vec::new(), size);
        list.push(table.concat());
    }
    let on_findings: Vec<Vec<Bytes>> = (0..350).map(|_| grown_on_findings(random, FULL)).collect();
    list.extend(on_findings.iter().filter(|table| table.len() <= FULL).map(|table| table.concat()));
    list
}

/// Each refusal number at the first, a middle and the last record, of full tables and of those of any size. (7 and 8
/// can't stand at record 0.)
fn each_refusal(random: &mut Random) -> Vec<Vec<u8>> {
    let mut list = Vec::new();
    for (number, class) in (2..=8).flat_map(|number| (0..3).map(move |class| (number, class))) {
        if number > 6 && class == 0 {
            continue;
        }
        for is_full in [true, false].into_iter().cycle().take(8) {
            list.push(refused(random, number, class, is_full));
        }
    }
    list
}

/// A table that is refused with this number at a record of this class: the first, a middle one or the last.
fn refused(random: &mut Random, number: u8, class: usize, is_full: bool) -> Vec<u8> {
    loop {
        let size = if is_full { FULL } else { 3 + random.below(FULL - 2) };
        let table = grown_to(random, size);
        let place = [0, 1 + random.below(size - 2), size - 1][class];
        if let Some(damaged) = damage(random, &table, number, place) {
            return damaged.concat();
        }
    }
}

/// Records of every kind damaged at one byte and at two, some of all; and full tables with any byte changed.
fn damaged_bytes(random: &mut Random) -> Vec<Vec<u8>> {
    let mut list: Vec<Vec<u8>> = one_byte_damaged(random).iter().step_by(3).map(Table::bytes).collect();
    list.extend(two_bytes_damaged(random).iter().step_by(13).map(Table::bytes));
    for _ in 0..60 {
        let mut table = grown_to(random, FULL);
        scatter(random, &mut table);
        list.push(table.concat());
    }
    list.retain(|bytes| bytes.len() <= MOST_TWIN_BYTES);
    list
}

//! Making the questions about cuts of large tables: which records are kept, what is lacking, and how much output is lent.

use crate::ask_large::large_random;
use crate::asking::{closed_selection, some_of};
use crate::generate::grown_to;
use crate::grow::{grow, RACES};
use crate::large_gadgets::{lacking, Lack, LACKS, SIZES};
use crate::questions::{Question, MOST_PART};
use crate::random::Random;
use crate::record::Bytes;
use crate::selection::naming;
use crate::table::{MOST_RECORDS, RECORD_BYTES};
use std::collections::BTreeSet;

type Kept = BTreeSet<usize>;

pub fn ask_large_cuts(seed: u64) -> Vec<Question> {
    let mut random = large_random(seed.rotate_left(32));
    let mut list = Vec::new();
    for size in SIZES {
        list.extend(whole_and_parts(&mut random, size));
        list.extend(with_holes(&mut random, size));
        list.extend(of_lacking(size));
        list.extend(with_bits_past(&mut random, size));
    }
    list
}

fn ask(kept: &Kept, output_size: usize, table: &[Bytes]) -> Question {
    Question::Cut { selection: naming(kept), output_size: output_size as u16, table: table.concat() }
}

/// How many bytes these records take.
fn exact(kept: &Kept) -> usize {
    RECORD_BYTES * kept.len()
}

/// The whole table, the last record with what it needs, and other parts that lack nothing; outputs of the exact size,
/// a byte less, none, and more.
fn whole_and_parts(random: &mut Random, size: usize) -> Vec<Question> {
    let table = grown_to(random, size);
    let bytes = table.concat();
    let whole: Kept = (0..size).collect();
    let all_but_last: Kept = (0..size - 1).collect();
    let only_last = closed_selection(&bytes, &[size - 1].into(), true);
    let few = closed_selection(&bytes, &some_of(random, size, 5), true);
    let mut most = closed_selection(&bytes, &some_of(random, size, 40), true);
    most.extend(&only_last);
    vec![
        ask(&whole, exact(&whole), &table),
        ask(&whole, exact(&whole) - 1, &table),
        ask(&all_but_last, exact(&whole), &table),
        ask(&only_last, exact(&only_last), &table),
        ask(&only_last, exact(&only_last) - 1, &table),
        ask(&few, MOST_PART, &table),
        ask(&most, exact(&most), &table),
        ask(&most, exact(&most) + 1, &table),
        ask(&most, 0, &table),
        ask(&Kept::from([0]), RECORD_BYTES, &table),
        ask(&Kept::from([size - 1]), RECORD_BYTES, &table),
        ask(&Kept::new(), RECORD_BYTES, &table),
    ]
}

/// Parts of a table with many races of which a record is then left out, or the racing writes are not minded.
fn with_holes(random: &mut Random, size: usize) -> Vec<Question> {
    let table = grow(random, &RACES, Vec::new(), size);
    let bytes = table.concat();
    let mut list = Vec::new();
    for turn in 0..4 {
        let wish = some_of(random, size, 40);
        let mut kept = closed_selection(&bytes, &wish, turn > 1);
        if turn > 0 {
            let known: Vec<usize> = kept.iter().copied().collect();
            kept.remove(&random.pick(&known));
        }
        list.push(ask(&kept, exact(&kept), &table));
    }
    list
}

/// All records but the one that the last record lacks then; and all but the one before the last, which a last record
/// that could only lack its parent does without.
fn of_lacking(size: usize) -> Vec<Question> {
    let without = |table: &[Bytes], left_out: usize| {
        let kept: Kept = (0..size).filter(|&n| n != left_out).collect();
        ask(&kept, exact(&kept), table)
    };
    let mut list = vec![without(&lacking(size, Lack::Parent).0, size - 2)];
    for lack in LACKS {
        let (table, left_out) = lacking(size, lack);
        list.push(without(&table, left_out));
    }
    list
}

/// The numbers past the count to be named: the count itself, the first of the next byte, and the last that there is.
pub fn numbers_past(count: usize) -> Kept {
    let first_of_next_byte = 8 * (count / 8 + 1);
    [count, first_of_next_byte, MOST_RECORDS - 1]
        .into_iter()
        .filter(|n| (count..MOST_RECORDS).contains(n))
        .collect()
}

/// A part that lacks nothing, and a number at the count or past it.
fn with_bits_past(random: &mut Random, size: usize) -> Vec<Question> {
    let table = grown_to(random, size);
    let part = closed_selection(&table.concat(), &some_of(random, size, 10), true);
    let ask_past = |number: usize| {
        let mut kept = part.clone();
        kept.insert(number);
        ask(&kept, exact(&kept), &table)
    };
    numbers_past(size).into_iter().map(ask_past).collect()
}

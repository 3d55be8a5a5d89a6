//! Making the questions about large tables: patterns, every size, and lengths around the limit.

use crate::gadgets::far_read;
use crate::generate::grown_to;
use crate::large_gadgets::{patterns, LEAST_LARGE, SIZES};
use crate::questions::{Question, MOST_PART};
use crate::random::Random;
use crate::record::init;
use crate::selection::naming_first;
use crate::table::{MOST_RECORDS, RECORD_BYTES};

/// Lengths around the bounds of refusal 1, as they are and as they were, and the longest that can be asked.
pub const LENGTHS: [usize; 22] = [
    0, 1, 15, 16, 17, 31, 32, 33, 1008, 1023, 1024, 1025, 1039, 1040, 2048, 3184, 3199, 3200, 3201, 3215,
    3216, MOST_PART,
];

/// Chances of their own for large tables, so that all else of a seed stays what it is.
pub fn large_random(seed: u64) -> Random {
    Random::new(seed ^ u64::from_be_bytes(*b"\0RECORDS"))
}

pub fn ask_large(seed: u64) -> Vec<Question> {
    let mut random = large_random(seed);
    let mut list = Vec::new();
    for pattern in SIZES.into_iter().flat_map(patterns) {
        list.push(Question::Judge { table: pattern.table.concat() });
        if pattern.can_be_relisted {
            list.push(Question::Judge { table: pattern.relisted(&mut random).concat() });
        }
    }
    for size in LEAST_LARGE..=MOST_RECORDS {
        list.push(Question::Judge { table: grown_to(&mut random, size).concat() });
    }
    list
}

/// Tables of each of these lengths.
pub fn ask_lengths() -> Vec<Question> {
    LENGTHS.into_iter().flat_map(of_length).collect()
}

/// The bytes of a sound table cut off at this length, in every operation, and zeros of this length. Above the limit
/// they are more records of the same kind.
fn of_length(length: usize) -> Vec<Question> {
    let table = [far_read(MOST_RECORDS), far_read(MOST_RECORDS)].concat().concat()[..length].to_vec();
    vec![
        Question::Judge { table: table.clone() },
        Question::Judge { table: vec![0; length] },
        Question::Fetch { asked: 0, table: table.clone() },
        Question::Cut { selection: naming_first(1), output_size: RECORD_BYTES as u16, table: table.clone() },
        Question::Append { in_use: 1, event: init(1, 0), buffer: table },
    ]
}

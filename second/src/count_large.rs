//! Counting what questions reach of large tables: patterns with what they show, and lengths around the limit.

use crate::ask_large::LENGTHS;
use crate::count_patterns::KnownPatterns;
use crate::large_gadgets::{patterns, SIZES};
use crate::questions::Question;
use crate::table::{MOST_RECORDS, RECORD_BYTES};
use std::sync::LazyLock;

static KNOWN: LazyLock<KnownPatterns> =
    LazyLock::new(|| KnownPatterns::of(SIZES.into_iter().flat_map(patterns).collect()));

/// The pattern that a judged table is, if the answer shows what the pattern is made for.
pub fn reached_by_pattern(table: &[u8], answer: &[String]) -> Vec<String> {
    KNOWN.reached(table, answer)
}

/// What a question reaches by the length of its table, which refusal 1 is about.
pub fn reached_by_length(question: &Question, answer: &[String]) -> Option<String> {
    let length = question.table().len();
    let is_refused = answer.iter().any(|line| line.starts_with("refused 1 at "));
    match question {
        Question::Batch { .. } | Question::Figures { .. } => None,
        // An append's buffer may have any length, if it has room.
        Question::Append { .. } if !answer[0].starts_with("count ") => None,
        _ => LENGTHS.contains(&length).then(|| length_class(question.operation(), length, is_refused)),
    }
}

fn length_class(operation: &str, length: usize, is_refused: bool) -> String {
    format!("{operation} of {length} bytes {}", if is_refused { "refused 1" } else { "taken" })
}

/// What the questions about large tables should reach.
pub fn required_of_large() -> Vec<String> {
    let mut list = KNOWN.required_as_built();
    list.extend(required_in_another_order());
    for length in LENGTHS {
        let is_refused = length == 0 || length % RECORD_BYTES != 0 || length > RECORD_BYTES * MOST_RECORDS;
        list.extend(["judge", "cut", "fetch"].map(|operation| length_class(operation, length, is_refused)));
        // Room for one record in use and the new one.
        list.extend((length >= 2 * RECORD_BYTES).then(|| length_class("append", length, false)));
    }
    list
}

/// The patterns whose records can be listed otherwise.
pub fn required_in_another_order() -> Vec<String> {
    KNOWN.required_in_another_order()
}

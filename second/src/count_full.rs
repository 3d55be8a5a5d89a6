//! Counting what appends and fetches reach around the limit of records.

use crate::ask_full::{link_answers, ASKED, FETCHED_FROM, LINK_BYTES, ROOMS};
use crate::count_bytes::byte_named;
use crate::questions::Question;
use crate::table::{MOST_RECORDS, RECORD_BYTES};

/// What an append or a fetch reaches by its answer.
pub fn reached_by_full(question: &Question, answer: &[String]) -> Vec<String> {
    match question {
        Question::Append { in_use, event, buffer } => {
            reached_by_append(*in_use as usize, event, buffer.len(), &answer[0])
        }
        Question::Fetch { asked, table } if table.len() % RECORD_BYTES == 0 => {
            vec![fetch_class(*asked as usize, table.len() / RECORD_BYTES, &answer[1])]
        }
        _ => Vec::new(),
    }
    .into_iter()
    .filter(|class| REQUIRED.contains(class))
    .collect()
}

static REQUIRED: std::sync::LazyLock<Vec<String>> = std::sync::LazyLock::new(required_of_full);

fn reached_by_append(in_use: usize, event: &[u8], length: usize, line: &str) -> Vec<String> {
    let mut reached = vec![room_class(in_use, length, line)];
    reached.extend(LINK_BYTES.map(|byte| link_class(in_use, byte, event[byte], line)));
    reached.extend(byte_named(line).map(|(number, place, _)| record_class(in_use, number, place == in_use)));
    reached
}

fn room_class(in_use: usize, length: usize, line: &str) -> String {
    format!("append with {in_use} in use to {length} bytes: {line}")
}

fn link_class(in_use: usize, byte: usize, link: u8, line: &str) -> String {
    format!("append with {in_use} in use, byte {byte} of the new record {link}: {line}")
}

fn record_class(in_use: usize, number: u8, is_new: bool) -> String {
    let which = if is_new { "the new record" } else { "one in use" };
    format!("append with {in_use} in use refused {number} by {which}")
}

fn fetch_class(asked: usize, count: usize, line: &str) -> String {
    format!("fetch {asked} of {count} records: {line}")
}

/// What appends and fetches should reach.
pub fn required_of_full() -> Vec<String> {
    let mut list: Vec<String> =
        ROOMS.iter().map(|&(in_use, length, line)| room_class(in_use, length, line)).collect();
    let last = MOST_RECORDS - 1;
    list.extend(link_answers().iter().map(|(byte, link, line)| link_class(last, *byte, *link, line)));
    for in_use in [last, MOST_RECORDS] {
        list.extend((2..=8).map(|number| record_class(in_use, number, false)));
    }
    list.extend((3..=8).map(|number| record_class(last, number, true)));
    for (count, asked) in FETCHED_FROM.into_iter().flat_map(|count| ASKED.map(|asked| (count, asked))) {
        let line = match asked {
            _ if count > MOST_RECORDS => "refused 1 at 0".to_string(),
            _ if asked < count => "given".to_string(),
            _ => format!("refused 13 at {asked}"),
        };
        list.push(fetch_class(asked, count, &line));
    }
    list
}

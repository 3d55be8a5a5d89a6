//! Counting what cuts reach: selections of each length, and cuts of large tables.

use crate::ask_large_cuts::numbers_past;
use crate::ask_selections::{EACH_LENGTH, LONG, OF_FULL};
use crate::edit::cut;
use crate::large_gadgets::{Lack, LACKS, SIZES};
use crate::selection::{named_by, SELECTION_BYTES};
use crate::table::{read_table, Record, Refusal, MOST_RECORDS, RECORD_BYTES};
use crate::text::refusal_line;

/// What a cut reaches by its answer.
pub fn reached_by_cut(selection: &[u8], output_size: usize, table: &[u8], answer: &[String]) -> Vec<String> {
    let line = &answer[0];
    let sound = match read_table(table) {
        Ok(records) => records,
        Err(refusal) => return reached_before_selection(selection, table, refusal, line),
    };
    if selection.len() != SELECTION_BYTES {
        return reached_by_wrong_length(selection, output_size, table, line);
    }
    let mut reached = vec![length_class(SELECTION_BYTES, result_of(line))];
    if SIZES.contains(&sound.len()) {
        let kept = named_by(selection);
        let large = reached_by_kept(&kept, sound.len(), output_size, line);
        reached.extend(large.iter().map(|what| large_class(sound.len(), what)));
        reached.extend(lack_in(&sound, &kept, line).map(|lack| large_class(sound.len(), &lack_class(lack))));
    }
    if sound.len() == MOST_RECORDS {
        reached.push(full_class(SELECTION_BYTES, result_of(line)));
    }
    reached
}

/// The answer without numbers that are counted by themselves.
fn result_of(line: &str) -> &str {
    match line.split_once(" at ") {
        Some((refused, _)) => refused,
        None => "cut",
    }
}

fn length_class(length: usize, what: &str) -> String {
    format!("selection of {length} bytes: {what}")
}

fn full_class(length: usize, what: &str) -> String {
    format!("selection of {length} bytes for {MOST_RECORDS} records or more: {what}")
}

fn large_class(size: usize, what: &str) -> String {
    format!("cut of {size} records: {what}")
}

/// The table's refusal, which goes before the selection's.
fn reached_before_selection(selection: &[u8], table: &[u8], refusal: Refusal, line: &str) -> Vec<String> {
    if refusal_line(refusal).trim_end() != line {
        return Vec::new();
    }
    let what = format!("table refused {}", refusal.number);
    let mut reached = vec![length_class(selection.len(), &what)];
    if table.len() >= RECORD_BYTES * MOST_RECORDS {
        reached.push(full_class(selection.len(), &what));
    }
    reached
}

/// Refused 9 for the length, and what the selection would be refused with if it had the right one.
fn reached_by_wrong_length(selection: &[u8], output_size: usize, table: &[u8], line: &str) -> Vec<String> {
    if line != "refused 9 at 0" {
        return Vec::new();
    }
    let mut right = selection.to_vec();
    right.resize(SELECTION_BYTES, 0);
    let other = match cut(table, &right, &mut vec![0; output_size], usize::MAX) {
        Ok(_) => "else good".to_string(),
        Err(refusal) => format!("else refused {}", refusal.number),
    };
    let mut reached = vec![length_class(selection.len(), &format!("refused 9, {other}"))];
    if selection.iter().skip(SELECTION_BYTES).any(|&byte| byte != 0) {
        reached.push(length_class(selection.len(), NAMES_PAST));
    }
    if table.len() == RECORD_BYTES * MOST_RECORDS {
        reached.push(full_class(selection.len(), "refused 9"));
    }
    reached
}

const NAMES_PAST: &str = "refused 9, a bit set past 25 bytes";
const SHORT_BY_ONE: &str = "refused 11, one byte short";

/// What was kept of so many records, or why nothing was.
fn reached_by_kept(kept: &[usize], size: usize, output_size: usize, line: &str) -> Vec<String> {
    let with_last = kept.last() == Some(&(size - 1));
    let exact = RECORD_BYTES * kept.len();
    match result_of(line) {
        "cut" => {
            let part = match (kept.len() == size, with_last) {
                (true, _) => "whole",
                (_, true) => "part with the last",
                (_, false) => "part without the last",
            };
            let output = if exact == output_size { "output exact" } else { "output longer" };
            vec![part.to_string(), output.to_string()]
        }
        "refused 9" => {
            let past = kept.iter().filter(|&&number| number >= size).map(|&number| past_class(number));
            past.chain(kept.is_empty().then(|| NOTHING_NAMED.to_string())).collect()
        }
        "refused 11" if exact == output_size + 1 => vec![SHORT_BY_ONE.to_string()],
        "refused 11" if output_size == 0 => vec![NO_OUTPUT.to_string()],
        _ => Vec::new(),
    }
}

const NOTHING_NAMED: &str = "refused 9, nothing named";
const NO_OUTPUT: &str = "refused 11, no output";

fn past_class(number: usize) -> String {
    format!("refused 9, {number} named")
}

/// What the last record lacks, if the cut was refused 10 there.
fn lack_in(records: &[Record], kept: &[usize], line: &str) -> Option<Lack> {
    let last = records.len() - 1;
    if line != format!("refused 10 at {last}") {
        return None;
    }
    let is_gone = |link: Option<usize>| link.is_some_and(|number| !kept.contains(&number));
    Some(match (is_gone(records[last].parent), is_gone(records[last].source)) {
        (true, _) => Lack::Parent,
        (_, true) => Lack::Source,
        _ => Lack::RacingWrite,
    })
}

fn lack_class(lack: Lack) -> String {
    let what = match lack {
        Lack::Parent => "parent",
        Lack::Source => "source",
        Lack::RacingWrite => "racing write",
    };
    format!("refused 10 at the last, whose {what} is gone")
}

/// What cuts should reach.
pub fn required_of_cuts() -> Vec<String> {
    let mut list: Vec<String> = EACH_LENGTH.chain(LONG).flat_map(required_of_length).collect();
    for length in OF_FULL {
        let sound = if length == SELECTION_BYTES { "cut" } else { "refused 9" };
        list.extend([sound, "table refused 1", "table refused 2"].map(|what| full_class(length, what)));
    }
    for size in SIZES {
        let kept = ["whole", "part with the last", "part without the last", "output exact", "output longer"];
        let refused = [SHORT_BY_ONE, NO_OUTPUT, NOTHING_NAMED];
        list.extend(kept.into_iter().chain(refused).map(|what| large_class(size, what)));
        list.extend(numbers_past(size).into_iter().map(|number| large_class(size, &past_class(number))));
        list.extend(LACKS.map(|lack| large_class(size, &lack_class(lack))));
    }
    list
}

fn required_of_length(length: usize) -> Vec<String> {
    let mut list = vec!["table refused 1", "table refused 6"];
    match length {
        SELECTION_BYTES => list.extend(["cut", "refused 9", "refused 10", "refused 11"]),
        // No bytes name nothing.
        0 => list.push("refused 9, else refused 9"),
        _ => list.extend([
            "refused 9, else good",
            "refused 9, else refused 9",
            "refused 9, else refused 10",
            "refused 9, else refused 11",
        ]),
    }
    list.extend((length > SELECTION_BYTES).then_some(NAMES_PAST));
    list.into_iter().map(|what| length_class(length, what)).collect()
}

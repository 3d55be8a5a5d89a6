//! Counting what batches reach: in the questions about them, and in whole files.

use crate::batch::{read_batch, HEADER_BYTES, MARK};
use crate::count::Counts;
use crate::count_bytes::{byte_named, required_of_judged_bytes, NAMED};
use crate::count_large::required_in_another_order;
use crate::findings::FINDINGS;
use crate::large_gadgets::SIZES as LARGE;
use crate::questions::Question;
use crate::relations::depth;
use crate::table::{Refusal, MOST_RECORDS, RECORD_BYTES};
use crate::text::judge;

/// The sizes of whole files around the limit.
const SIZES: [usize; 5] = [59_999, 60_000, 60_001, 60_004, 70_000];

/// What a question about a batch reaches, by its answer.
pub fn reached_by_question(batch: &[u8], output_size: usize, answer: &[String]) -> Vec<String> {
    let words: Vec<&str> = answer[0].split(' ').collect();
    let ["answered", tables, "tables", bytes, "bytes,", "ended", end @ ..] = &words[..] else {
        return reached_by_refusal(batch, output_size);
    };
    let refusal = refusal_in(end);
    let written: usize = bytes.parse().unwrap_or(usize::MAX);
    let output = if written == output_size { "exact" } else { "longer" };
    let mut reached = vec![
        format!("batch answered {}", how_many(tables.parse().unwrap_or(usize::MAX))),
        format!("batch {}", ending(batch, refusal)),
        format!("batch output {output}"),
    ];
    reached.extend(double_fault(batch, refusal).map(|fault| format!("batch {fault}")));
    for line in bytes_in(&answer[1]).split(|&byte| byte == b'\n') {
        let line = String::from_utf8_lossy(line);
        reached.extend(table_refused(&line));
        reached.extend(line.strip_prefix("events ").map(table_judged));
    }
    let is_above = |table: &&[u8]| table.len() == RECORD_BYTES * (MOST_RECORDS + 1);
    reached.extend(read_batch(batch).tables.iter().any(is_above).then(|| ABOVE_LIMIT.to_string()));
    reached
}

const ABOVE_LIMIT: &str = "batch table of one record above the limit";

fn table_judged(records: &str) -> String {
    format!("batch table of {records} records")
}

/// What the line of a refused table reaches: its number, and the byte that it names.
fn table_refused(line: &str) -> Vec<String> {
    let Some((number, _)) = line.strip_prefix("refused ").and_then(|rest| rest.split_once(' ')) else {
        return Vec::new();
    };
    let mut reached = vec![format!("batch table refused {number}")];
    reached.extend(byte_named(line).map(|(number, _, byte)| table_byte((number, byte))));
    reached
}

fn table_byte((number, byte): (u8, usize)) -> String {
    format!("batch table refused {number} byte {byte}")
}

/// A question that was refused 11, by what the second judge would have written.
fn reached_by_refusal(batch: &[u8], output_size: usize) -> Vec<String> {
    let read = read_batch(batch);
    let short_by_one = read.answers(depth()).len() == output_size + 1;
    let output = if short_by_one { "one byte short" } else { "shorter" };
    vec![format!("batch output {output}"), format!("batch refused 11, else {}", ending(batch, read.refusal))]
}

fn refusal_in(words: &[&str]) -> Option<Refusal> {
    let ["refused", number, "at", place] = words else { return None };
    Some(Refusal::at(number.parse().ok()?, place.parse().ok()?))
}

/// The bytes that such digits tell.
pub fn bytes_in(hex: &str) -> Vec<u8> {
    let digits: Vec<u8> = hex.chars().filter_map(|c| c.to_digit(16)).map(|digit| digit as u8).collect();
    digits.chunks(2).map(|two| two.iter().fold(0, |byte, digit| 16 * byte + digit)).collect()
}

fn how_many(tables: usize) -> &'static str {
    match tables {
        0 => "0 tables",
        1 => "1 table",
        2..=99 => "several tables",
        _ => "hundreds of tables",
    }
}

/// How a batch ended: why, and whether at its first header.
fn ending(batch: &[u8], refusal: Option<Refusal>) -> String {
    let Some(Refusal { number, place, .. }) = refusal else { return "ended cleanly".to_string() };
    let why = match (number, batch.len().saturating_sub(place)) {
        (15, left @ 1..=3) => format!("15 with {left} left"),
        (15, _) => "15 by its length".to_string(),
        _ => number.to_string(),
    };
    format!("ended in {why} {}", if place == 0 { "at 0" } else { "later" })
}

const SHORT_BEFORE_MARK: &str = "ended in 15 where the mark is wrong too";
const MARK_BEFORE_LENGTH: &str = "ended in 14 where bytes are missing too";

/// Which of two faults was told, where a header has both: the order of the tests shows only there.
fn double_fault(batch: &[u8], refusal: Option<Refusal>) -> Option<&'static str> {
    let Refusal { number, place, .. } = refusal?;
    let rest = batch.get(place..)?;
    if rest.len() < HEADER_BYTES {
        let shared = rest.len().min(MARK.len());
        return (number == 15 && rest[..shared] != MARK[..shared]).then_some(SHORT_BEFORE_MARK);
    }
    let length = u16::from_le_bytes([rest[2], rest[3]]) as usize;
    (number == 14 && rest.len() < HEADER_BYTES + length).then_some(MARK_BEFORE_LENGTH)
}

/// The endings of batches within the limit.
fn endings() -> Vec<String> {
    let mut list = vec!["ended cleanly".to_string()];
    for why in ["14", "15 with 1 left", "15 with 2 left", "15 with 3 left", "15 by its length"] {
        list.extend(["at 0", "later"].map(|place| format!("ended in {why} {place}")));
    }
    list.extend([SHORT_BEFORE_MARK, MARK_BEFORE_LENGTH].map(|fault| fault.to_string()));
    list
}

/// What the questions about batches should reach.
pub fn required_of_questions() -> Vec<String> {
    let mut list = vec!["batch ended in 1 at 0".to_string(), "batch refused 11".to_string()];
    list.extend(endings().iter().map(|end| format!("batch {end}")));
    // A batch that ends at its first header writes nothing, and any output is long enough.
    let later = endings().into_iter().filter(|end| end.ends_with("later") || end.ends_with("cleanly"));
    list.extend(later.map(|end| format!("batch refused 11, else {end}")));
    let numbers = ["0 tables", "1 table", "several tables", "hundreds of tables"];
    list.extend(numbers.map(|number| format!("batch answered {number}")));
    list.extend((1..=8).map(|number| format!("batch table refused {number}")));
    list.extend(NAMED.map(table_byte));
    list.extend(LARGE.map(|size| table_judged(&size.to_string())));
    list.push(ABOVE_LIMIT.to_string());
    list.extend(["exact", "longer", "one byte short", "shorter"].map(|size| format!("batch output {size}")));
    list
}

/// What whole batches reach, by the second judge. Each table counts as one that is judged alone.
pub fn count_files(batches: &[Vec<u8>]) -> Counts {
    let mut counts = Counts::default();
    for bytes in batches {
        let batch = read_batch(bytes);
        counts.add(ending(bytes, batch.refusal));
        counts.add(how_many(batch.tables.len()).to_string());
        double_fault(bytes, batch.refusal).into_iter().for_each(|fault| counts.add(fault.to_string()));
        if SIZES.contains(&bytes.len()) {
            counts.add(format!("{} bytes", bytes.len()));
        }
        for &table in &batch.tables {
            let answer: Vec<String> = judge(table, depth()).lines().map(|line| line.to_string()).collect();
            counts.count(&Question::Judge { table: table.to_vec() }, &answer);
        }
    }
    counts
}

/// What the whole batches should reach.
pub fn required_of_files() -> Vec<String> {
    let mut list = endings();
    list.push("ended in 1 at 0".to_string());
    list.extend(["0 tables", "1 table", "several tables", "hundreds of tables"].map(|n| n.to_string()));
    list.extend(SIZES.map(|size| format!("{size} bytes")));
    list.extend((1..=8).map(|number| format!("judge refused {number}")));
    list.extend(required_of_judged_bytes());
    list.extend(LARGE.map(|size| format!("size {size}")));
    list.extend(required_in_another_order());
    let above = RECORD_BYTES * (MOST_RECORDS + 1);
    list.push(format!("judge of {above} bytes refused 1"));
    list.extend(FINDINGS.map(|finding| format!("finding {finding}")));
    list.extend(["consistent", "inconsistent", "undefined"].map(|verdict| format!("verdict {verdict}")));
    list
}

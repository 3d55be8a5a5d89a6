//! The operations beside judging: cut, append and fetch.

use crate::findings::racing_writes_stood_on;
use crate::relations::Relations;
use crate::selection::{kept_records, SELECTION_BYTES};
use crate::table::{
    most_records, read_after_mark, read_records, read_table, refuse, test_length, Record, Refusal,
    RECORD_BYTES,
};
use crate::wrong_selections::length_goes_first;

/// "A cut: 1, records, 9, 10, 11." Returns how many records were kept.
pub fn cut(table: &[u8], selection: &[u8], output: &mut [u8], depth: usize) -> Result<usize, Refusal> {
    if length_goes_first() && selection.len() != SELECTION_BYTES {
        return refuse(9, 0);
    }
    let records = read_table(table)?;
    let kept = kept_records(selection, records.len())?;
    let relations = Relations::of(&records, depth);
    for &n in &kept {
        if lacks_something(&records, &relations, &kept, n) {
            return refuse(10, n);
        }
    }
    if output.len() < RECORD_BYTES * kept.len() {
        return refuse(11, 0);
    }
    write_kept(table, &records, &kept, output);
    Ok(kept.len())
}

/// "a kept record lacks its parent, its source, or its racing write"
fn lacks_something(records: &[Record], relations: &Relations, kept: &[usize], n: usize) -> bool {
    let gone = |link: Option<usize>| link.is_some_and(|number| !kept.contains(&number));
    let racing = racing_writes_stood_on(records, relations, n);
    gone(records[n].parent)
        || gone(records[n].source)
        || (!racing.is_empty() && !racing.iter().any(|write| kept.contains(write)))
}

/// "the kept records in their old order, parent and source as the new numbers of the same records
/// and every other byte as it was"
fn write_kept(table: &[u8], records: &[Record], kept: &[usize], output: &mut [u8]) {
    let new_number = |old: usize| kept.iter().position(|&n| n == old).expect("kept") as u8;
    for (place, &n) in kept.iter().enumerate() {
        let part = &mut output[RECORD_BYTES * place..RECORD_BYTES * (place + 1)];
        part.copy_from_slice(&table[RECORD_BYTES * n..RECORD_BYTES * (n + 1)]);
        if let Some(parent) = records[n].parent {
            part[5] = new_number(parent);
        }
        if let Some(source) = records[n].source {
            part[6] = new_number(source);
        }
    }
}

/// "An append: 1, records in use, 12, 11, then the new event by 3 to 8 at the next number, as if
/// its bytes were read." Returns the new count.
pub fn append(buffer: &mut [u8], in_use: usize, event: &[u8; 16]) -> Result<usize, Refusal> {
    if in_use > most_records() || RECORD_BYTES * in_use > buffer.len() {
        return refuse(1, 0);
    }
    let end = RECORD_BYTES * in_use;
    let records = read_records(&buffer[..end])?;
    if in_use == most_records() {
        return refuse(12, 0);
    }
    if buffer.len() < end + RECORD_BYTES {
        return refuse(11, 0);
    }
    read_after_mark(event, &records)?;
    buffer[end..end + RECORD_BYTES].copy_from_slice(event);
    Ok(in_use + 1)
}

/// "hands back the record's own sixteen bytes in the caller's table, or an empty part"
pub fn fetch(table: &[u8], asked: usize) -> &[u8] {
    match fetch_refusal(table, asked) {
        Some(_) => &[],
        None => &table[RECORD_BYTES * asked..RECORD_BYTES * (asked + 1)],
    }
}

/// "says whether the fetch is refused, and gives 1 or 13 with the place. Only those two are tested"
pub fn fetch_refusal(table: &[u8], asked: usize) -> Option<Refusal> {
    if let Err(refusal) = test_length(table.len()) {
        return Some(refusal);
    }
    let past = asked >= table.len() / RECORD_BYTES;
    past.then_some(Refusal::at(13, asked))
}

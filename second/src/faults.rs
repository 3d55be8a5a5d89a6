//! Tests 2 to 8 of a record, each telling the byte that its refusal names (document 02, W4).

use crate::table::{Kind, Record, Value, NONE};

/// Refusal 2: "mark is not 45 56"; "for 2 byte 0", also where only byte 1 is wrong.
pub fn mark_fault(bytes: &[u8]) -> Option<usize> {
    (bytes[..2] != [0x45, 0x56]).then_some(0)
}

/// Refusal 3: "Init NA; load NA, ACQ, SC; store NA, REL, SC; update AR, SC"; "for 3 byte 2 if the kind is
/// above 3, else 3".
pub fn kind_or_order_fault(bytes: &[u8]) -> Option<usize> {
    let allowed: &[u8] = match bytes[2] {
        0 => &[0],
        1 => &[0, 1, 4],
        2 => &[0, 2, 4],
        3 => &[3, 4],
        _ => return Some(2),
    };
    (!allowed.contains(&bytes[3])).then_some(3)
}

/// Refusal 4: "byte 8 above 3, or a field that should rest doesn't"; "for 4 the least byte at fault".
pub fn rest_fault(bytes: &[u8]) -> Option<usize> {
    restless_bytes(bytes).next()
}

/// Every byte at fault by test 4, upward. A byte of a resting value is at fault if it is itself not 0.
pub fn restless_bytes(bytes: &[u8]) -> impl Iterator<Item = usize> + '_ {
    (6..16).filter(|&at| !is_in_order(bytes, at))
}

/// "A field that a kind lacks holds 0 (source: 255; byte 8: no bit for it), and so does the number of a value
/// that is u".
fn is_in_order(bytes: &[u8], at: usize) -> bool {
    let has_read = bytes[2] == 1 || bytes[2] == 3;
    let has_write = bytes[2] == 2 || bytes[2] == 3;
    let is_init = bytes[2] == 0;
    let known = |has_value: bool, bit_of_u: u8| has_value && bytes[8] & bit_of_u == 0;
    match at {
        6 => has_read || bytes[6] == NONE,
        7 => !is_init || bytes[7] == 0,
        8 => bytes[8] <= 3 && (has_read || bytes[8] & 1 == 0) && (has_write || bytes[8] & 2 == 0),
        10 | 11 => known(has_read, 1) || bytes[at] == 0,
        12 | 13 => known(has_write, 2) || bytes[at] == 0,
        _ => bytes[at] == 0,
    }
}

/// Refusal 5: "thread above 15 or location above 31"; "for 5 byte 4 if the thread is at fault, else 7".
pub fn range_fault(bytes: &[u8]) -> Option<usize> {
    if bytes[4] > 15 {
        return Some(4);
    }
    (bytes[7] > 31).then_some(7)
}

/// Refusal 6, "for 6 and 8 byte 5": "record 0 is not an Init of thread 0 without parent; another record has no
/// parent, or one not earlier; a non-Init has another thread than its parent; an Init's thread has stood
/// in an earlier record".
pub fn parent_or_thread_fault(record: &Record, earlier: &[Record]) -> Option<usize> {
    parent_or_thread_is_wrong(record, earlier).then_some(5)
}

fn parent_or_thread_is_wrong(record: &Record, earlier: &[Record]) -> bool {
    let is_init = record.kind == Kind::Init;
    if earlier.is_empty() {
        return !is_init || record.thread != 0 || record.parent.is_some();
    }
    let parent = match record.parent {
        None => return true,
        Some(number) if number >= earlier.len() => return true,
        Some(number) => &earlier[number],
    };
    if is_init {
        earlier.iter().any(|other| other.thread == record.thread)
    } else {
        parent.thread != record.thread
    }
}

/// Refusal 7, "for 7 byte 6": "the source is not an earlier write of the same location; a known value written
/// differs from the value read and that isn't u; u was written and a known value read; no source,
/// and the value read is known".
pub fn source_fault(record: &Record, earlier: &[Record]) -> Option<usize> {
    source_is_wrong(record, earlier).then_some(6)
}

fn source_is_wrong(record: &Record, earlier: &[Record]) -> bool {
    let read = match record.read {
        None => return false,
        Some(read) => read,
    };
    let source = match record.source {
        None => return read != Value::U,
        Some(number) if number >= earlier.len() => return true,
        Some(number) => &earlier[number],
    };
    if !source.is_write() || !source.shares_location(record) {
        return true;
    }
    match (source.written, read) {
        (_, Value::U) => false,
        (written, known) => written != Some(known),
    }
}

/// Refusal 8, "for 6 and 8 byte 5": "an earlier record has the same parent and thread, and the two are not both
/// reads of one location with different read values (u differs from every number)".
pub fn sibling_fault(record: &Record, earlier: &[Record]) -> Option<usize> {
    let is_wrong = earlier.iter().any(|other| {
        let siblings = other.parent == record.parent && other.thread == record.thread;
        let branch =
            other.is_read() && record.is_read() && other.shares_location(record) && other.read != record.read;
        siblings && !branch
    });
    is_wrong.then_some(5)
}

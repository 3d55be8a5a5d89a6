//! Counting which byte refusals name (document 02, W4), in which records, and what else was wrong in them.

use crate::faults::restless_bytes;
use crate::questions::Question;
use crate::table::RECORD_BYTES;

/// Every number of a record's refusal with each byte that it can name.
pub const NAMED: [(u8, usize); 18] = [
    (2, 0),
    (3, 2),
    (3, 3),
    (4, 6),
    (4, 7),
    (4, 8),
    (4, 9),
    (4, 10),
    (4, 11),
    (4, 12),
    (4, 13),
    (4, 14),
    (4, 15),
    (5, 4),
    (5, 7),
    (6, 5),
    (7, 6),
    (8, 5),
];

/// Those that a new record can have, which is made of an event. An append leaves 2 out; an event has a kind, so
/// that 3 is its order's; its values, and the location unless it is an Init, are there or not there, and their
/// resting bytes and the zeros are written at rest, so that of 4 a source that its kind lacks is left.
const NAMED_IN_EVENTS: [(u8, usize); 7] = [(3, 3), (4, 6), (5, 4), (5, 7), (6, 5), (7, 6), (8, 5)];

/// Where a refused record stood.
const JUDGED: &str = "judge";
const CUT: &str = "cut";
const IN_USE: &str = "append, in use";
const NEW: &str = "append, new";

/// Which bytes can be at fault by test 4, by kind and by which values are u.
pub const RESTING: [(&str, &[usize]); 9] = [
    ("Init", &[6, 7, 8, 9, 10, 11, 12, 13, 14, 15]),
    ("load of a number", &[8, 9, 12, 13, 14, 15]),
    ("load of u", &[8, 9, 10, 11, 12, 13, 14, 15]),
    ("store of a number", &[6, 8, 9, 10, 11, 14, 15]),
    ("store of u", &[6, 8, 9, 10, 11, 12, 13, 14, 15]),
    ("update of a number to a number", &[8, 9, 14, 15]),
    ("update of u to a number", &[8, 9, 10, 11, 14, 15]),
    ("update of a number to u", &[8, 9, 12, 13, 14, 15]),
    ("update of u to u", &[8, 9, 10, 11, 12, 13, 14, 15]),
];

/// A refusal that names a byte, and the bytes of its record.
struct Named<'a> {
    number: u8,
    byte: usize,
    record: &'a [u8],
}

/// What refused records are asked to show, each at least once.
type Class = (&'static str, fn(&Named) -> bool);
const CLASSES: [Class; 14] = [
    ("2, byte 0 alone wrong", |r| r.number == 2 && r.record[1] == 0x56),
    ("2, byte 1 alone wrong", |r| r.number == 2 && r.record[0] == 0x45),
    ("2, both bytes wrong", |r| r.number == 2 && r.record[0] != 0x45 && r.record[1] != 0x56),
    ("3, kind and order in no row", |r| r.number == 3 && r.byte == 2 && r.record[3] > 4),
    ("4, byte 8 above 3", |r| r.number == 4 && r.byte == 8 && r.record[8] > 3),
    ("4, a bit in byte 8 that the kind lacks", |r| r.number == 4 && r.byte == 8 && r.record[8] <= 3),
    ("4, both bytes of a resting value read", |r| r.number == 4 && r.byte == 10 && r.record[11] != 0),
    ("4, a resting value read of low byte 0", |r| r.number == 4 && r.byte == 11 && r.record[10] == 0),
    ("4, both bytes of a resting value written", |r| r.number == 4 && r.byte == 12 && r.record[13] != 0),
    ("4, a resting value written of low byte 0", |r| r.number == 4 && r.byte == 13 && r.record[12] == 0),
    ("4, the thread wrong too", |r| r.number == 4 && r.record[4] > 15),
    ("4, the location wrong too", |r| r.number == 4 && r.byte > 7 && r.record[7] > 31),
    ("5, thread and location wrong", |r| r.number == 5 && r.byte == 4 && r.record[7] > 31),
    ("5, no parent either", |r| r.number == 5 && r.record[5] == 255),
];

/// What a judging, cut or append reaches by the byte that its answer names.
pub fn reached_by_bytes(question: &Question, answer: &[String]) -> Vec<String> {
    let Some((number, place, byte)) = answer.first().and_then(|line| byte_named(line)) else {
        return Vec::new();
    };
    let Some((standing, record)) = refused_record(question, place) else { return Vec::new() };
    let named = Named { number, byte, record };
    let mut reached = vec![named_class(standing, (number, byte))];
    if number == 4 {
        reached.push(kind_class(standing, kind_of(record), byte));
        let at_fault: Vec<usize> = restless_bytes(record).collect();
        reached.extend(
            (at_fault.len() == 2 && at_fault[0] == byte).then(|| two_class(standing, byte, at_fault[1])),
        );
    }
    let held = CLASSES.iter().filter(|(_, holds)| holds(&named));
    reached.extend(held.map(|(class, _)| format!("{standing} refused {class}")));
    reached
}

/// The number, the place and the byte of such a line.
pub fn byte_named(line: &str) -> Option<(u8, usize, usize)> {
    let words: Vec<&str> = line.split(' ').collect();
    let ["refused", number, "at", place, "byte", byte] = words[..] else { return None };
    Some((number.parse().ok()?, place.parse().ok()?, byte.parse().ok()?))
}

/// Where the record of this number stands in the question, and its bytes.
fn refused_record(question: &Question, place: usize) -> Option<(&'static str, &[u8])> {
    let (standing, table) = match question {
        Question::Judge { table } => (JUDGED, table),
        Question::Cut { table, .. } => (CUT, table),
        Question::Append { in_use, event, .. } if place == *in_use as usize => return Some((NEW, event)),
        Question::Append { buffer, .. } => (IN_USE, buffer),
        _ => return None,
    };
    let record = table.chunks_exact(RECORD_BYTES).nth(place)?;
    Some((standing, record))
}

/// The row of `RESTING` that a record of a sound kind is in.
fn kind_of(record: &[u8]) -> &'static str {
    let (read_is_u, written_is_u) = (record[8] & 1 != 0, record[8] & 2 != 0);
    let row = match record[2] {
        0 => 0,
        1 => 1 + usize::from(read_is_u),
        2 => 3 + usize::from(written_is_u),
        _ => 5 + usize::from(read_is_u) + 2 * usize::from(written_is_u),
    };
    RESTING[row].0
}

fn named_class(standing: &str, (number, byte): (u8, usize)) -> String {
    format!("{standing} refused {number} byte {byte}")
}

fn kind_class(standing: &str, kind: &str, byte: usize) -> String {
    format!("{standing} refused 4 byte {byte}: {kind}")
}

fn two_class(standing: &str, least: usize, other: usize) -> String {
    format!("{standing} refused 4 byte {least} where {other} is wrong too")
}

/// What judgings, cuts and appends should reach.
pub fn required_of_bytes() -> Vec<String> {
    let mut list = required_of_judged_bytes();
    list.extend([CUT, IN_USE].into_iter().flat_map(required_in_tables));
    list.extend(NAMED_IN_EVENTS.map(|named| named_class(NEW, named)));
    list.extend(["Init", "store of a number", "store of u"].map(|kind| kind_class(NEW, kind, 6)));
    let double = ["4, the thread wrong too", "5, thread and location wrong", "5, no parent either"];
    list.extend(double.map(|class| format!("{NEW} refused {class}")));
    list
}

/// What judged tables should reach, whether alone or in a batch.
pub fn required_of_judged_bytes() -> Vec<String> {
    let mut list = required_in_tables(JUDGED);
    // An Init has all of them at rest.
    list.extend((6..16).flat_map(|other| (6..other).map(move |least| two_class(JUDGED, least, other))));
    list
}

/// Each byte that a judged table's refusal can name.
pub fn required_of_named() -> Vec<String> {
    NAMED.map(|named| named_class(JUDGED, named)).to_vec()
}

fn required_in_tables(standing: &str) -> Vec<String> {
    let mut list: Vec<String> = NAMED.map(|named| named_class(standing, named)).to_vec();
    for (kind, bytes) in RESTING {
        list.extend(bytes.iter().map(|&byte| kind_class(standing, kind, byte)));
    }
    list.extend(CLASSES.iter().map(|(class, _)| format!("{standing} refused {class}")));
    list
}

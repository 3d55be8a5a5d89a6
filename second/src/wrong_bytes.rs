//! Bytes that refusals name wrong on purpose, in the ways of `wrong` that are about them.

use crate::table::{Refusal, RECORD_BYTES};
use crate::wrong::{asked, Way};

/// The refusal as this build tells it: as it is, or wrong in the way that was asked for. `record` is the record
/// refused, empty where none is.
pub fn as_built(right: Refusal, record: &[u8]) -> Refusal {
    asked().map_or(right, |way| wrong_byte(way, right, record))
}

/// The refusal with its byte wrong in this way, where the way makes a difference.
pub fn wrong_byte(way: Way, right: Refusal, record: &[u8]) -> Refusal {
    let byte = match (way, right.number, right.byte) {
        // The values take two bytes each from 10 on, and so does the zero at 14.
        (Way::FirstOfField, 4, Some(byte @ (11 | 13 | 15))) => Some(byte - 1),
        (Way::ThreadAsLocation, 5, _) => Some(7),
        (Way::ByteOfLength, 1, _) => Some(0),
        (Way::ByteOfTable, _, Some(byte)) => Some(RECORD_BYTES * right.place + byte),
        (Way::SecondOfMark, 2, _) if record[0] == 0x45 => Some(1),
        (_, _, byte) => byte,
    };
    Refusal { byte, ..right }
}

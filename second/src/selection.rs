//! A selection of records, by request W5: which bytes name which records, and refusal 9.

use crate::table::{refuse, Refusal, MOST_RECORDS};
use crate::wrong_selections::selection_as_built;
use std::collections::BTreeSet;

/// "A selection is now 25 bytes"
pub const SELECTION_BYTES: usize = MOST_RECORDS.div_ceil(8);

/// "record n being bit n mod 8 of byte n div 8", the bit that weighs 2 to that power.
fn bit_of(record: usize) -> (usize, u8) {
    (record / 8, 1 << (record % 8))
}

/// The records that these bytes name, however many bytes they are.
pub fn named_by(selection: &[u8]) -> Vec<usize> {
    let is_named = |&record: &usize| {
        let (byte, bit) = bit_of(record);
        selection[byte] & bit != 0
    };
    (0..8 * selection.len()).filter(is_named).collect()
}

/// Refusal 9: "selection empty, or naming a record at or past the count", and "a selection that isn't 25 bytes
/// long". Else the records to be kept, in order.
pub fn kept_records(selection: &[u8], count: usize) -> Result<Vec<usize>, Refusal> {
    let selection = selection_as_built(selection, count);
    let kept = named_by(&selection);
    if selection.len() != SELECTION_BYTES || kept.is_empty() || kept.iter().any(|&n| n >= count) {
        return refuse(9, 0);
    }
    Ok(kept)
}

/// The selection that names these records.
pub fn naming(records: &BTreeSet<usize>) -> Vec<u8> {
    let mut selection = vec![0; SELECTION_BYTES];
    for &record in records {
        let (byte, bit) = bit_of(record);
        selection[byte] |= bit;
    }
    selection
}

/// The selection that names the records before this one.
pub fn naming_first(count: usize) -> Vec<u8> {
    naming(&(0..count).collect())
}

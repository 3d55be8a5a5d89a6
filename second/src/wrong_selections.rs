//! Selections read wrong on purpose, in the ways of `wrong` that are about them.

use crate::selection::SELECTION_BYTES;
use crate::wrong::{asked, Way};

/// The selection as this build reads it for a table of so many records: as it is, or wrong in the way that was
/// asked for.
pub fn selection_as_built(right: &[u8], count: usize) -> Vec<u8> {
    asked().map_or(right.to_vec(), |way| wrong_selection(way, right, count))
}

/// The selection that a reader wrong in this way takes it for, where the way makes a difference.
pub fn wrong_selection(way: Way, right: &[u8], count: usize) -> Vec<u8> {
    let mut selection = right.to_vec();
    match way {
        Way::HighBitFirst => selection.iter_mut().for_each(|byte| *byte = byte.reverse_bits()),
        Way::AnyLength => selection.resize(SELECTION_BYTES, 0),
        Way::PastTheCount => {
            for record in count..8 * selection.len() {
                selection[record / 8] &= !(1 << (record % 8));
            }
        }
        _ => {}
    }
    selection
}

/// Whether this build tests a selection's length before the table.
pub fn length_goes_first() -> bool {
    asked() == Some(Way::LengthBeforeTable)
}

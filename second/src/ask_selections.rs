//! Making the questions about a selection's length: cuts by selections of other lengths, otherwise good and not.

use crate::examples::example;
use crate::gadgets::far_read;
use crate::questions::{Question, MOST_PART};
use crate::selection::{naming, naming_first, SELECTION_BYTES};
use crate::table::{MOST_RECORDS, RECORD_BYTES};

/// Every length up to twice the right one.
pub const EACH_LENGTH: std::ops::RangeInclusive<usize> = 0..=2 * SELECTION_BYTES;
/// Longer ones; the third ends in the right one's byte.
pub const LONG: [usize; 5] = [255, 256, 256 + SELECTION_BYTES, 257, MOST_PART];
/// Lengths of the selections of a full table.
pub const OF_FULL: [usize; 7] = [0, 8, 24, 25, 26, 50, 256 + SELECTION_BYTES];

pub fn ask_selections() -> Vec<Question> {
    let mut list: Vec<Question> = EACH_LENGTH.chain(LONG).flat_map(of_small_table).collect();
    list.extend(OF_FULL.into_iter().flat_map(of_full_table));
    list
}

/// The selection cut off at this length, or with zero bytes behind it.
fn resized(mut selection: Vec<u8>, length: usize) -> Vec<u8> {
    selection.resize(length, 0);
    selection
}

fn ask(selection: Vec<u8>, output_size: usize, table: &[u8]) -> Question {
    Question::Cut { selection, output_size: output_size as u16, table: table.to_vec() }
}

/// E8, which has 12 records, with record 11 as its own parent, and without its last byte.
fn refused_tables() -> [Vec<u8>; 2] {
    let (mut own_parent, mut broken) = (example("E8"), example("E8"));
    own_parent[RECORD_BYTES * 11 + 5] = 11;
    broken.pop();
    [own_parent, broken]
}

/// Selections of this length for E8: good ones; those that name a record past the right length; and those with
/// another fault, of the table, by 9, 10 and 11.
fn of_small_table(length: usize) -> Vec<Question> {
    let table = example("E8");
    let good = resized(naming(&[0, 1, 2, 3, 4, 5, 7, 8].into()), length);
    let mut list = vec![
        ask(good.clone(), 8 * RECORD_BYTES, &table),
        ask(resized(naming_first(12), length), table.len(), &table),
        ask(resized(naming_first(0), length), table.len(), &table),
        ask(resized(naming(&[0, 199].into()), length), table.len(), &table),
        ask(resized(naming(&[0, 5].into()), length), table.len(), &table),
        ask(good.clone(), RECORD_BYTES - 1, &table),
    ];
    list.extend(refused_tables().iter().map(|refused| ask(good.clone(), table.len(), refused)));
    for (byte, bit) in [(SELECTION_BYTES, 1), (length.saturating_sub(1), 128)] {
        if (SELECTION_BYTES..length).contains(&byte) {
            let mut more = good.clone();
            more[byte] |= bit;
            list.push(ask(more, table.len(), &table));
        }
    }
    list
}

/// Selections of this length for a full table: of the whole, or of what the length still names; for one that is
/// refused at its last record; and for one above the limit.
fn of_full_table(length: usize) -> Vec<Question> {
    let table = far_read(MOST_RECORDS).concat();
    let above = far_read(MOST_RECORDS + 1).concat();
    let mut refused = table.clone();
    refused[RECORD_BYTES * (MOST_RECORDS - 1)] ^= 1;
    let whole = resized(naming_first(MOST_RECORDS), length);
    vec![
        ask(whole.clone(), table.len(), &table),
        ask(whole.clone(), table.len(), &refused),
        ask(whole, RECORD_BYTES, &above),
    ]
}

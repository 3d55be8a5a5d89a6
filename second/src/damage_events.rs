//! New records for appends, damaged at the bytes that an event can carry, one and two at a time.

use crate::damage_bytes::{values_for, wrong_value, Shape, Table, SHAPES, VALUES};
use crate::random::Random;
use crate::record::Bytes;
use crate::table::RECORD_BYTES;

/// The bytes of a new record that an event can carry otherwise. An event has its kind, so that byte 2 is right;
/// it has a thread, a parent and a source whatever its kind; an order and a location unless it is an Init; and
/// its values: one that is u has no number, and one that its kind lacks is not there. So bytes 0, 1, 2, 8, 9,
/// 14 and 15 are right always, and 7 and 10 to 13 where they should rest.
fn carried(record: &Bytes) -> Vec<usize> {
    let is_init = record[2] == 0;
    let known = |kinds: [u8; 2], bit_of_u: u8| kinds.contains(&record[2]) && record[8] & bit_of_u == 0;
    let can_change = |byte: &usize| match byte {
        4..=6 => true,
        3 | 7 => !is_init,
        10 | 11 => known([1, 3], 1),
        12 | 13 => known([2, 3], 2),
        _ => false,
    };
    (0..RECORD_BYTES).filter(can_change).collect()
}

/// The value for this byte of a new record: an event's order is one of the five.
fn carried_value(byte: usize, value: u8) -> u8 {
    if byte == 3 {
        value % 5
    } else {
        value
    }
}

/// The records in use, and a sound new one of this shape behind them.
fn sound_event(random: &mut Random, shape: Shape, turn: usize) -> Table {
    let mut table = Table::sound(random, shape, turn);
    table.records.truncate(table.place + 1);
    table
}

/// Tables whose last record is a new one, changed at one byte and at two within what an event can carry.
pub fn damaged_events(random: &mut Random) -> Vec<Table> {
    let mut list: Vec<Table> = Vec::new();
    for shape in SHAPES {
        let bytes = carried(sound_event(random, shape, 0).record());
        for (&byte, which) in bytes.iter().flat_map(|byte| (0..VALUES).map(move |which| (byte, which))) {
            let mut table = sound_event(random, shape, list.len());
            let right = table.record()[byte];
            let value = carried_value(byte, values_for(random, right)[which]);
            if value != right {
                table.record()[byte] = value;
                list.push(table);
            }
        }
        let pairs = bytes.iter().flat_map(|high| bytes.iter().map(move |low| (low, high)));
        for (&low, &high) in pairs.filter(|(low, high)| low < high) {
            let mut table = sound_event(random, shape, list.len());
            for byte in [low, high] {
                let value = wrong_value(random, byte, table.place);
                table.record()[byte] = carried_value(byte, value);
            }
            list.push(table);
        }
    }
    list
}

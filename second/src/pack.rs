//! Making batches: packing tables, and endings of a chosen kind.

use crate::batch::{HEADER_BYTES, MARK};
use crate::damage::damage;
use crate::generate::grown;
use crate::random::Random;

/// The header of a table of so many bytes.
pub fn header(length: u16) -> [u8; HEADER_BYTES] {
    let [low, high] = length.to_le_bytes();
    [MARK[0], MARK[1], low, high]
}

/// The tables one after another, each behind its header.
pub fn pack<T: AsRef<[u8]>>(tables: &[T]) -> Vec<u8> {
    let mut batch = Vec::new();
    for table in tables {
        batch.extend(header(table.as_ref().len() as u16));
        batch.extend(table.as_ref());
    }
    batch
}

/// How a batch within the limit ends.
#[derive(Clone, Copy, Debug)]
pub enum Ending {
    Clean,
    /// 14, with more bytes or fewer behind it than its length says.
    WrongMark,
    /// 15, with so many bytes left, one to three, whether they begin the mark or not.
    ShortHeader(usize),
    /// 15, with so many bytes fewer than the length says.
    ShortTable(usize),
}

/// Every ending, those of 15 with each number of bytes left and with one and with many bytes missing.
pub const ENDINGS: [Ending; 7] = [
    Ending::Clean,
    Ending::WrongMark,
    Ending::ShortHeader(1),
    Ending::ShortHeader(2),
    Ending::ShortHeader(3),
    Ending::ShortTable(1),
    Ending::ShortTable(40),
];

/// The bytes that make a batch end so, after whole tables.
pub fn ending_bytes(random: &mut Random, ending: Ending) -> Vec<u8> {
    let length = 1 + random.below(64);
    let mut bytes = header(length as u16).to_vec();
    bytes.extend((0..length).map(|_| random.byte()));
    match ending {
        Ending::Clean => bytes.clear(),
        Ending::WrongMark => {
            spoil_mark(random, &mut bytes);
            let size = random.pick(&[HEADER_BYTES, HEADER_BYTES + 1, bytes.len() - 1, bytes.len()]);
            bytes.truncate(size);
        }
        Ending::ShortHeader(left) => {
            if random.percent(50) {
                spoil_mark(random, &mut bytes);
            }
            bytes.truncate(left);
        }
        Ending::ShortTable(missing) => {
            bytes[..HEADER_BYTES].copy_from_slice(&header((length + missing) as u16));
        }
    }
    bytes
}

/// Makes the first two bytes another mark than a batch's: one byte or both changed, the two
/// exchanged, or a record's mark.
fn spoil_mark(random: &mut Random, bytes: &mut [u8]) {
    let other = random.byte().max(1);
    match random.below(5) {
        0 => bytes[0] ^= other,
        1 => bytes[1] ^= other,
        2 => bytes[..2].iter_mut().for_each(|byte| *byte ^= other),
        3 => bytes.swap(0, 1),
        _ => bytes[..2].copy_from_slice(&[0x45, 0x56]),
    }
}

/// A table that is refused with this number, 1 to 8, at any record where the number can stand.
pub fn refused_table(random: &mut Random, number: u8) -> Vec<u8> {
    if number == 1 {
        let length = random.pick(&[0, 1, 4, 15, 17, 31, 1023, 1025, 3199, 3201, 3216]);
        return vec![MARK[random.below(2)]; length];
    }
    loop {
        let table = grown(random, 3);
        let place = random.below(table.len());
        if let Some(damaged) = damage(random, &table, number, place) {
            return damaged.concat();
        }
    }
}

//! The judge tuned by hand for this form of table only, as the limit to compare with.
//!
//! Every set of records is a row of as few words as the table needs, nothing is decoded twice, no relation is closed where a
//! row follows from rows that are there, and its room is kept between tables. It shares no code with the other judges.

use crate::tuned_room::{Room, RECORD_BYTES};
use crate::tuned_text::{write_refusal, write_report, Refusal};

const MOST_RECORDS: usize = 200;

pub struct Tuned {
    one: Box<Room<1, 64>>,
    two: Box<Room<2, 128>>,
    three: Box<Room<3, 192>>,
    four: Box<Room<4, 256>>,
}

impl Default for Tuned {
    fn default() -> Tuned {
        Tuned { one: Room::new(), two: Room::new(), three: Room::new(), four: Room::new() }
    }
}

impl Tuned {
    /// The answer's text at the front of `out`, and its length.
    pub fn write_answer(&mut self, table: &[u8], out: &mut [u8]) -> usize {
        let n = table.len() / RECORD_BYTES;
        if n == 0 || n > MOST_RECORDS || n * RECORD_BYTES != table.len() {
            return write_refusal(out, Refusal { number: 1, place: 0, byte: None });
        }
        match n {
            0..=64 => self.one.answer(table, n, out),
            65..=128 => self.two.answer(table, n, out),
            129..=192 => self.three.answer(table, n, out),
            _ => self.four.answer(table, n, out),
        }
    }

    /// The answer's text.
    pub fn text(&mut self, table: &[u8]) -> String {
        let mut out = [0; 4096];
        let length = self.write_answer(table, &mut out);
        String::from_utf8_lossy(&out[..length]).into_owned()
    }
}

impl<const W: usize, const N: usize> Room<W, N> {
    fn answer(&mut self, table: &[u8], n: usize, out: &mut [u8]) -> usize {
        match self.read(table) {
            Err(refusal) => write_refusal(out, refusal),
            Ok(sets) => {
                let found = self.find(n, &sets);
                write_report(out, n, &found)
            }
        }
    }
}

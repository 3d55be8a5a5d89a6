//! The lines of the tuned judge, written straight into the room that is lent for them.

use crate::tuned_cycles::Cycle;
use crate::tuned_findings::{Findings, Pair};

/// What is told of a refused table.
pub struct Refusal {
    pub number: usize,
    pub place: usize,
    /// The byte within the record that a record's refusal names.
    pub byte: Option<usize>,
}

struct Text<'a> {
    out: &'a mut [u8],
    length: usize,
}

impl Text<'_> {
    fn put(&mut self, word: &[u8]) {
        self.out[self.length..self.length + word.len()].copy_from_slice(word);
        self.length += word.len();
    }

    /// A space and a number below 1000.
    fn put_number(&mut self, number: usize) {
        let digit = |power: usize| b'0' + (number / power % 10) as u8;
        self.put(b" ");
        if number >= 100 {
            self.put(&[digit(100)]);
        }
        if number >= 10 {
            self.put(&[digit(10)]);
        }
        self.put(&[digit(1)]);
    }

    fn put_line(&mut self, name: &[u8], numbers: impl IntoIterator<Item = usize>) {
        self.put(name);
        let named = self.length;
        numbers.into_iter().for_each(|number| self.put_number(number));
        if self.length == named {
            self.put(b" none");
        }
        self.put(b"\n");
    }
}

/// The refusal's line at the front of the room, and its length.
pub fn write_refusal(out: &mut [u8], refusal: Refusal) -> usize {
    let mut text = Text { out, length: 0 };
    text.put(b"refused");
    text.put_number(refusal.number);
    text.put(b" at");
    text.put_number(refusal.place);
    if let Some(byte) = refusal.byte {
        text.put(b" byte");
        text.put_number(byte);
    }
    text.put(b"\n");
    text.length
}

fn cycle(found: &Option<Cycle>) -> impl Iterator<Item = usize> + '_ {
    found.iter().flat_map(Cycle::records)
}

/// The report's lines at the front of the room, and their length.
pub fn write_report(out: &mut [u8], events: usize, found: &Findings) -> usize {
    let pair = |pair: Pair| pair.into_iter().flat_map(|(p, q)| [p, q]);
    let mut text = Text { out, length: 0 };
    text.put_line(b"events", [events]);
    text.put_line(b"R", found.r);
    text.put_line(b"A1", cycle(&found.a1));
    text.put_line(b"A2", pair(found.a2));
    text.put_line(b"A3", pair(found.a3));
    text.put_line(b"A4", cycle(&found.a4));
    text.put_line(b"A5", pair(found.a5));
    text.put_line(b"W", pair(found.w));
    text.put(match (found.w.is_some(), found.has_another_than_w()) {
        (true, _) => b"verdict undefined\n",
        (false, true) => b"verdict inconsistent\n",
        (false, false) => b"verdict consistent\n",
    });
    text.length
}

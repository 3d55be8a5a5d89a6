//! A batch of tables, by request W1: reading it, the program's text, and the one call.

use crate::report::{report_on, Report};
use crate::table::{refuse, Refusal};
use crate::text::{judge, refusal_line};
use crate::wrong::{is_asked, Way};

/// "a batch of at most 60,000 bytes"
pub const MOST_BYTES: usize = 60_000;
/// "before each table the two-byte mark 54 42 (hex)"
pub const MARK: [u8; 2] = [0x54, 0x42];
/// The mark, then the table's length, "two bytes, low byte first".
pub const HEADER_BYTES: usize = 4;

/// What a batch holds: its tables up to the end or to the refusal that ended it.
#[derive(Debug, PartialEq, Eq)]
pub struct Batch<'a> {
    pub tables: Vec<&'a [u8]>,
    pub refusal: Option<Refusal>,
}

/// "1 at 0, with no answers, for a batch above 60,000 bytes"; the others "at the byte where a header begins".
pub fn read_batch(bytes: &[u8]) -> Batch<'_> {
    let mut tables = Vec::new();
    if bytes.len() > MOST_BYTES {
        return Batch { tables, refusal: Some(Refusal::at(1, 0)) };
    }
    let mut place = 0;
    while place < bytes.len() {
        match next_table(&bytes[place..]) {
            Ok(table) => {
                tables.push(table);
                place += HEADER_BYTES + table.len();
            }
            Err(number) => return Batch { tables, refusal: Some(Refusal::at(number, place)) },
        }
    }
    Batch { tables, refusal: None }
}

/// The table behind the header that begins here, or the refusal's number: "15 if fewer than four bytes are
/// left, then 14 for a wrong batch mark, then 15 if fewer bytes are left than the length says".
fn next_table(rest: &[u8]) -> Result<&[u8], u8> {
    if is_asked(Way::MarkOfShortHeader) && !rest.starts_with(&MARK) && !MARK.starts_with(rest) {
        return Err(14);
    }
    if rest.len() < HEADER_BYTES {
        return Err(15);
    }
    let (header, after) = rest.split_at(HEADER_BYTES);
    if header[..2] != MARK {
        return Err(14);
    }
    let length = u16::from_le_bytes([header[2], header[3]]) as usize;
    after.get(..length).ok_or(15)
}

impl Batch<'_> {
    /// Each table's answer as it gets it alone, one after another; `depth` is that of `Relations::of`.
    pub fn answers(&self, depth: usize) -> String {
        self.tables.iter().map(|table| judge(table, depth)).collect()
    }

    /// The same answers as values.
    pub fn reports(&self, depth: usize) -> Vec<Result<Report, Refusal>> {
        self.tables.iter().map(|table| report_on(table, depth)).collect()
    }
}

/// What the program writes for a batch: the answers, "then any batch refusal".
pub fn batch_text(bytes: &[u8], depth: usize) -> String {
    let batch = read_batch(bytes);
    batch.answers(depth) + &batch.refusal.map_or(String::new(), refusal_line)
}

/// What the one call returns: how many tables it answered, how many bytes it wrote, how the batch ended.
#[derive(Clone, Copy, Debug, PartialEq, Eq)]
pub struct Answered {
    pub tables: usize,
    pub bytes: usize,
    pub refusal: Option<Refusal>,
}

/// The one call: writes every answer to the front of the output. 11 is tested last, by what it would write,
/// however the batch ends; the batch's own refusal is returned and not written.
pub fn answer_batch(bytes: &[u8], output: &mut [u8], depth: usize) -> Result<Answered, Refusal> {
    let batch = read_batch(bytes);
    let text = batch.answers(depth);
    match output.get_mut(..text.len()) {
        None => refuse(11, 0),
        Some(front) => {
            front.copy_from_slice(text.as_bytes());
            Ok(Answered { tables: batch.tables.len(), bytes: text.len(), refusal: batch.refusal })
        }
    }
}

//! Reading a table: the sixteen bytes of a record, and what is told of a refusal.

use crate::faults::{
    kind_or_order_fault, mark_fault, parent_or_thread_fault, range_fault, rest_fault, sibling_fault,
    source_fault,
};
use crate::wrong::{is_asked, Way};
use crate::wrong_bytes::as_built;

pub const RECORD_BYTES: usize = 16;
/// "Raise the limit to 200 records" (document 02, W5); the limits in bytes and of a selection come from it.
pub const MOST_RECORDS: usize = 200;
/// "255 for none": the byte of an absent parent or source.
pub const NONE: u8 = 255;

#[derive(Clone, Copy, Debug, PartialEq, Eq)]
pub enum Kind {
    Init,
    Load,
    Store,
    Update,
}

#[derive(Clone, Copy, Debug, PartialEq, Eq)]
pub enum Order {
    Na,
    Acq,
    Rel,
    Ar,
    Sc,
}

impl Order {
    /// "whether it acquires (ACQ, AR, SC)"
    pub fn acquires(self) -> bool {
        matches!(self, Order::Acq | Order::Ar | Order::Sc)
    }

    /// "whether it releases (REL, AR, SC)"
    pub fn releases(self) -> bool {
        matches!(self, Order::Rel | Order::Ar | Order::Sc)
    }
}

#[derive(Clone, Copy, Debug, PartialEq, Eq)]
pub enum Value {
    U,
    Known(u16),
}

/// One event. A field that its kind lacks is `None`.
#[derive(Clone, Copy, Debug, PartialEq, Eq)]
pub struct Record {
    pub kind: Kind,
    pub order: Order,
    pub thread: u8,
    pub parent: Option<usize>,
    pub source: Option<usize>,
    pub location: Option<u8>,
    pub read: Option<Value>,
    pub written: Option<Value>,
}

impl Record {
    /// "Loads and updates are reads"
    pub fn is_read(&self) -> bool {
        matches!(self.kind, Kind::Load | Kind::Update)
    }

    /// "stores and updates are writes"
    pub fn is_write(&self) -> bool {
        matches!(self.kind, Kind::Store | Kind::Update)
    }

    /// One and the same location; "Init has none".
    pub fn shares_location(&self, other: &Record) -> bool {
        self.location.is_some() && self.location == other.location
    }
}

/// A refusal: its number, its place, and the byte within its record that a record's refusal (2 to 8) names.
#[derive(Clone, Copy, Debug, PartialEq, Eq)]
pub struct Refusal {
    pub number: u8,
    pub place: usize,
    pub byte: Option<usize>,
}

impl Refusal {
    /// "Refusals from elsewhere in document 01 and 14, 15 name no byte."
    pub fn at(number: u8, place: usize) -> Refusal {
        Refusal { number, place, byte: None }
    }

    /// "A record's refusal should name the byte too".
    pub fn at_byte(number: u8, place: usize, byte: usize) -> Refusal {
        Refusal { number, place, byte: Some(byte) }
    }
}

/// A refusal that names no byte.
pub fn refuse<T>(number: u8, place: usize) -> Result<T, Refusal> {
    Err(as_built(Refusal::at(number, place), &[]))
}

/// How many records this build takes: the limit, but for the judge that is wrong on purpose.
pub fn most_records() -> usize {
    if is_asked(Way::SixtyFour) {
        64
    } else {
        MOST_RECORDS
    }
}

/// Refusal 1: "length 0, not a multiple of 16, or above" the limit, which is 3,200 bytes.
pub fn test_length(length: usize) -> Result<(), Refusal> {
    if length == 0 || length % RECORD_BYTES != 0 || length > RECORD_BYTES * most_records() {
        return refuse(1, 0);
    }
    Ok(())
}

/// A whole table: refusal 1, then the records.
pub fn read_table(bytes: &[u8]) -> Result<Vec<Record>, Refusal> {
    test_length(bytes.len())?;
    read_records(bytes)
}

/// "Records are tested from 0 upward, numbers 2 to 8 in order within one; the first fault is the answer."
pub fn read_records(bytes: &[u8]) -> Result<Vec<Record>, Refusal> {
    let mut records = Vec::new();
    for (place, record) in bytes.chunks(RECORD_BYTES).enumerate() {
        test_record(record, place, 2, mark_fault(record))?;
        records.push(read_after_mark(record, &records)?);
    }
    Ok(records)
}

/// One record by tests 3 to 8, standing next after the earlier ones (an append leaves test 2 out).
pub fn read_after_mark(bytes: &[u8], earlier: &[Record]) -> Result<Record, Refusal> {
    let test = |number, fault| test_record(bytes, earlier.len(), number, fault);
    test(3, kind_or_order_fault(bytes))?;
    test(4, rest_fault(bytes))?;
    test(5, range_fault(bytes))?;
    let record = decode(bytes);
    test(6, parent_or_thread_fault(&record, earlier))?;
    test(7, source_fault(&record, earlier))?;
    test(8, sibling_fault(&record, earlier))?;
    Ok(record)
}

/// The refusal of this number at the record, if the test of that number found a byte to name.
fn test_record(bytes: &[u8], place: usize, number: u8, fault: Option<usize>) -> Result<(), Refusal> {
    match fault {
        None => Ok(()),
        Some(byte) => Err(as_built(Refusal::at_byte(number, place, byte), bytes)),
    }
}

/// The sixteen bytes as an event, once tests 3 to 5 have passed.
fn decode(bytes: &[u8]) -> Record {
    let kind = [Kind::Init, Kind::Load, Kind::Store, Kind::Update][bytes[2] as usize];
    let order = [Order::Na, Order::Acq, Order::Rel, Order::Ar, Order::Sc][bytes[3] as usize];
    let is_read = matches!(kind, Kind::Load | Kind::Update);
    let is_write = matches!(kind, Kind::Store | Kind::Update);
    Record {
        kind,
        order,
        thread: bytes[4],
        parent: link(bytes[5]),
        source: link(bytes[6]),
        location: (kind != Kind::Init).then_some(bytes[7]),
        read: is_read.then_some(value(bytes[8] & 1 != 0, bytes[10], bytes[11])),
        written: is_write.then_some(value(bytes[8] & 2 != 0, bytes[12], bytes[13])),
    }
}

fn link(byte: u8) -> Option<usize> {
    (byte != NONE).then_some(byte as usize)
}

fn value(is_u: bool, low: u8, high: u8) -> Value {
    if is_u {
        Value::U
    } else {
        Value::Known(u16::from_le_bytes([low, high]))
    }
}

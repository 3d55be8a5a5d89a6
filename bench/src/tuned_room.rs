//! The room in which the tuned judge works: what it knows of each record of one table.

use crate::rows::Row;

pub const RECORD_BYTES: usize = 16;
/// The byte of an absent parent or source.
pub const NONE: usize = 255;
/// A location is 0 to 31.
pub const LOCATIONS: usize = 32;

pub const INIT: u8 = 0;
pub const UPDATE: u8 = 3;
pub const NA: u8 = 0;
pub const SC: u8 = 4;

/// Room for N records, in rows of W words. It is kept from table to table and never cleared: of each field only what was
/// written for the table at hand is read.
pub struct Room<const W: usize, const N: usize> {
    /// Bytes 8 to 15 of each record, as one number.
    pub values: [u64; N],
    pub kind: [u8; N],
    pub order: [u8; N],
    pub thread: [u8; N],
    pub parent: [u8; N],
    pub source: [u8; N],
    pub location: [u8; N],
    /// The last child so far that is no Init, and of such a child the one before it.
    pub last_child: [u8; N],
    pub child_before: [u8; N],
    pub readers: [Row<W>; N],
    /// Those po before the record, those hb before it, and the writes that own one of the latter: by being it, or by
    /// being its source.
    pub po: [Row<W>; N],
    pub hb: [Row<W>; N],
    pub owners: [Row<W>; N],
    /// The record with all below it, and all below its children that are no Init, with these.
    pub below: [Row<W>; N],
    pub arms: [Row<W>; N],
    pub cf: [Row<W>; N],
    /// The readers of the records in conflict with this one.
    pub cf_readers: [Row<W>; N],
    /// Those with a step to the record: of wb0, of wb, and among SC records.
    pub wb0: [Row<W>; N],
    pub wb: [Row<W>; N],
    pub sc_steps: [Row<W>; N],
    /// The readers of the writes that are wb before this one.
    pub overtaken: [Row<W>; N],
    /// Those po before the record at another location, and those with po≠, then hb, to it.
    pub apart: [Row<W>; N],
    pub around: [Row<W>; N],
    pub layers: [Row<W>; N],
    pub at: [Row<W>; LOCATIONS],
}

/// What is known of all records together.
pub struct Sets<const W: usize> {
    pub writes: Row<W>,
    /// The updates that have a source.
    pub updates: Row<W>,
    pub na: Row<W>,
    pub sc: Row<W>,
    /// Whether any record has an arm beside it.
    pub branched: bool,
    /// Whether any write is the source of two updates.
    pub taken_twice: bool,
}

impl<const W: usize, const N: usize> Room<W, N> {
    pub fn new() -> Box<Self> {
        let rows = [Row::EMPTY; N];
        Box::new(Room {
            values: [0; N],
            kind: [0; N],
            order: [0; N],
            thread: [0; N],
            parent: [0; N],
            source: [0; N],
            location: [0; N],
            last_child: [0; N],
            child_before: [0; N],
            readers: rows,
            po: rows,
            hb: rows,
            owners: rows,
            below: rows,
            arms: rows,
            cf: rows,
            cf_readers: rows,
            wb0: rows,
            wb: rows,
            sc_steps: rows,
            overtaken: rows,
            apart: rows,
            around: rows,
            layers: rows,
            at: [Row::EMPTY; LOCATIONS],
        })
    }

    #[inline(always)]
    pub fn reads(&self, record: usize) -> bool {
        self.kind[record] & 1 != 0
    }

    #[inline(always)]
    pub fn writes(&self, record: usize) -> bool {
        self.kind[record] & 2 != 0
    }

    /// Whether there is sw from the source to its reader: REL, AR or SC, then ACQ, AR or SC.
    #[inline(always)]
    pub fn synchronises(&self, source: usize, reader: usize) -> bool {
        0b11100 >> self.order[source] & 1 != 0 && 0b11010 >> self.order[reader] & 1 != 0
    }
}

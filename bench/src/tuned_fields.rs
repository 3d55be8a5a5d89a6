//! The sixteen bytes of a record as the tuned judge tests them by themselves, and the byte that a refusal names.

use crate::tuned_room::{INIT, NONE};

const MARK: u64 = 0x5645;
/// The orders of each kind, one bit for each.
const ORDERS: [u8; 4] = [0b00001, 0b10011, 0b10101, 0b11000];
/// The bits of bytes 8 to 15 that have to be 0, by 4 times the kind plus the two bits of u.
const REST: [u64; 16] = rest();

const fn rest() -> [u64; 16] {
    let mut masks = [0; 16];
    let mut case = 0;
    while case < 16 {
        let (reads, writes) = (case / 4 % 2 == 1, case / 4 >= 2);
        let (read_is_u, written_is_u) = (case % 2 == 1, case % 4 >= 2);
        masks[case] = 0xffff_0000_0000_fffc
            | if reads { 0 } else { 1 }
            | if writes { 0 } else { 2 }
            | if reads && !read_is_u { 0 } else { 0xffff_0000 }
            | if writes && !written_is_u { 0 } else { 0xffff_0000_0000 };
        case += 1;
    }
    masks
}

#[derive(Clone, Copy)]
pub struct Fields {
    mark: u64,
    pub kind: usize,
    pub order: usize,
    pub thread: usize,
    pub parent: usize,
    pub source: usize,
    pub location: usize,
    /// Bytes 8 to 15, the first one lowest.
    pub values: u64,
}

impl Fields {
    #[inline(always)]
    pub fn of(record: &[u8; 16]) -> Fields {
        let both = u128::from_le_bytes(*record);
        let (low, values) = (both as u64, (both >> 64) as u64);
        let byte = |at: u32| (low >> (8 * at) & 0xff) as usize;
        let (kind, order, thread) = (byte(2), byte(3), byte(4));
        let (parent, source, location) = (byte(5), byte(6), byte(7));
        Fields { mark: low & 0xffff, kind, order, thread, parent, source, location, values }
    }

    #[inline(always)]
    pub fn reads(&self) -> bool {
        self.kind & 1 != 0
    }

    #[inline(always)]
    pub fn is_init(&self) -> bool {
        self.kind == INIT as usize
    }

    #[inline(always)]
    pub fn reads_u(&self) -> bool {
        self.values & 1 != 0
    }

    #[inline(always)]
    pub fn value_read(&self) -> u64 {
        self.values >> 16 & 0xffff
    }

    /// Tests 2 to 5: the number of the first that fails.
    #[inline(always)]
    pub fn test(&self) -> Result<(), usize> {
        if self.mark != MARK {
            return Err(2);
        }
        if self.kind > 3 || self.order > 4 || ORDERS[self.kind] >> self.order & 1 == 0 {
            return Err(3);
        }
        if self.restless() != 0 || self.has_loose_source() || self.has_loose_location() {
            return Err(4);
        }
        if self.thread > 15 || self.location > 31 {
            return Err(5);
        }
        Ok(())
    }

    /// The bits from byte 8 on that should be 0 and are not.
    #[inline(always)]
    fn restless(&self) -> u64 {
        self.values & REST[self.kind % 4 * 4 + (self.values & 3) as usize]
    }

    #[inline(always)]
    fn has_loose_source(&self) -> bool {
        !self.reads() && self.source != NONE
    }

    #[inline(always)]
    fn has_loose_location(&self) -> bool {
        self.is_init() && self.location != 0
    }

    /// The byte that the refusal of this record with this number names. Asked only of a table that is refused, so that the
    /// tests keep nothing for it.
    #[cold]
    pub fn byte_at_fault(&self, number: usize) -> usize {
        match number {
            2 => 0,
            3 if self.kind > 3 => 2,
            3 => 3,
            4 if self.has_loose_source() => 6,
            4 if self.has_loose_location() => 7,
            4 => 8 + self.restless().trailing_zeros() as usize / 8,
            5 if self.thread > 15 => 4,
            5 => 7,
            7 => 6,
            _ => 5,
        }
    }
}

//! A table read by the tuned judge: all tests, and in the same go the columns and what only looks upward (po, hb, owners).
//!
//! Parents and sources stand earlier, so each of these rows follows from two rows that are there already.

use crate::rows::Row;
use crate::tuned_fields::Fields;
use crate::tuned_room::{Room, Sets, LOCATIONS, NA, NONE, RECORD_BYTES, SC, UPDATE};
use crate::tuned_text::Refusal;

impl<const W: usize, const N: usize> Room<W, N> {
    /// Reads records of sixteen bytes, at most N.
    #[inline(always)]
    pub fn read(&mut self, table: &[u8]) -> Result<Sets<W>, Refusal> {
        let none = Row::EMPTY;
        let mut sets =
            Sets { writes: none, updates: none, na: none, sc: none, branched: false, taken_twice: false };
        let mut threads = 0;
        self.at = [none; LOCATIONS];
        for (b, record) in table.chunks_exact(RECORD_BYTES).enumerate() {
            let fields = Fields::of(record.try_into().expect("sixteen bytes"));
            if let Err(number) = self.test(b, &fields, threads, &mut sets) {
                return Err(Refusal { number, place: b, byte: Some(fields.byte_at_fault(number)) });
            }
            threads |= 1 << fields.thread;
            self.keep(b, &fields, &mut sets);
            self.look_upward(b, &fields, &mut sets);
        }
        Ok(sets)
    }

    /// Tests 2 to 8 of record b: the number of the first that fails.
    #[inline(always)]
    fn test(&mut self, b: usize, fields: &Fields, threads: u32, sets: &mut Sets<W>) -> Result<(), usize> {
        fields.test()?;
        if self.is_misplaced(b, fields, threads) {
            return Err(6);
        }
        if fields.reads() && self.has_wrong_source(b, fields) {
            return Err(7);
        }
        if !fields.is_init() && !self.stands_beside_arms(b, fields, sets) {
            return Err(8);
        }
        Ok(())
    }

    #[inline(always)]
    fn is_misplaced(&self, b: usize, fields: &Fields, threads: u32) -> bool {
        if b == 0 {
            !fields.is_init() || fields.thread != 0 || fields.parent != NONE
        } else if fields.parent >= b {
            true
        } else if fields.is_init() {
            threads >> fields.thread & 1 != 0
        } else {
            self.thread[fields.parent] as usize != fields.thread
        }
    }

    #[inline(always)]
    fn has_wrong_source(&self, b: usize, fields: &Fields) -> bool {
        let source = fields.source;
        if source == NONE {
            return !fields.reads_u();
        }
        if source >= b || !self.writes(source) || self.location[source] as usize != fields.location {
            return true;
        }
        let written = self.values[source];
        let wrote_what_is_read = written & 2 == 0 && written >> 32 & 0xffff == fields.value_read();
        !fields.reads_u() && !wrote_what_is_read
    }

    /// Puts the record beside its parent's other children, and says whether it may stand there.
    #[inline(always)]
    fn stands_beside_arms(&mut self, b: usize, fields: &Fields, sets: &mut Sets<W>) -> bool {
        let mut child = self.last_child[fields.parent] as usize;
        self.child_before[b] = child as u8;
        self.last_child[fields.parent] = b as u8;
        while child != NONE {
            sets.branched = true;
            let read_differs = (self.values[child] ^ fields.values) & 0xffff_0001 != 0;
            let one_location = self.location[child] as usize == fields.location;
            if !(fields.reads() && self.reads(child) && one_location && read_differs) {
                return false;
            }
            child = self.child_before[child] as usize;
        }
        true
    }

    #[inline(always)]
    fn keep(&mut self, b: usize, fields: &Fields, sets: &mut Sets<W>) {
        self.values[b] = fields.values;
        self.kind[b] = fields.kind as u8;
        self.order[b] = fields.order as u8;
        self.thread[b] = fields.thread as u8;
        self.parent[b] = fields.parent as u8;
        self.source[b] = fields.source as u8;
        self.location[b] = fields.location as u8;
        self.last_child[b] = NONE as u8;
        self.readers[b] = Row::EMPTY;
        if self.writes(b) {
            sets.writes.add(b);
        }
        if !fields.is_init() {
            self.at[fields.location].add(b);
            if self.order[b] == NA {
                sets.na.add(b);
            }
        }
        if self.order[b] == SC {
            sets.sc.add(b);
        }
    }

    #[inline(always)]
    fn look_upward(&mut self, b: usize, fields: &Fields, sets: &mut Sets<W>) {
        let (parent, source) = (fields.parent, fields.source);
        let (mut po, mut hb, mut owners) = (Row::EMPTY, Row::EMPTY, Row::EMPTY);
        if b > 0 {
            po = self.po[parent].with(parent);
            hb = self.hb[parent].with(parent);
            owners = self.owners[parent].or(self.owning(parent));
        }
        if source != NONE {
            if self.kind[b] == UPDATE {
                sets.taken_twice |= !self.readers[source].and(sets.updates).is_empty();
                sets.updates.add(b);
            }
            self.readers[source].add(b);
            if self.synchronises(source, b) {
                hb = hb.or(self.hb[source].with(source));
                owners = owners.or(self.owners[source].or(self.owning(source)));
            }
        }
        self.po[b] = po;
        self.hb[b] = hb;
        self.owners[b] = owners;
    }

    /// The writes that own this record: itself and its source, where they are.
    #[inline(always)]
    fn owning(&self, record: usize) -> Row<W> {
        let mut writes = Row::EMPTY;
        if self.writes(record) {
            writes.add(record);
        }
        if self.source[record] as usize != NONE {
            writes.add(self.source[record] as usize);
        }
        writes
    }
}

//! Conflict as the tuned judge works it out, for a table in which some record has an arm beside it.
//!
//! Two records conflict exactly if, below the last record above both, the ways to them begin with two children that are no
//! Init: by test 8 these are arms of one branch.

use crate::rows::Row;
use crate::tuned_room::{Room, INIT};

impl<const W: usize, const N: usize> Room<W, N> {
    #[inline(always)]
    pub fn find_conflicts(&mut self, n: usize) {
        for b in 0..n {
            self.below[b] = Row::EMPTY.with(b);
            self.arms[b] = Row::EMPTY;
        }
        for b in (1..n).rev() {
            let parent = self.parent[b] as usize;
            self.below[parent] = self.below[parent].or(self.below[b]);
            if self.kind[b] != INIT {
                self.arms[parent] = self.arms[parent].or(self.below[b]);
            }
        }
        self.cf[0] = Row::EMPTY;
        for b in 1..n {
            let parent = self.parent[b] as usize;
            let mut cf = self.cf[parent];
            if self.kind[b] != INIT {
                cf = cf.or(self.arms[parent].without(self.below[b]));
            }
            self.cf[b] = cf;
        }
        self.find_readers_in_conflict(n);
    }

    /// Only a source's are asked for.
    #[inline(always)]
    fn find_readers_in_conflict(&mut self, n: usize) {
        for b in 0..n {
            let mut readers = Row::EMPTY;
            if !self.readers[b].is_empty() {
                self.cf[b].each(|other| readers = readers.or(self.readers[other]));
            }
            self.cf_readers[b] = readers;
        }
    }
}

//! A4 as the tuned judge looks for it: the steps among SC records, by rows.
//!
//! Of the records po≠ before b, the last has the largest row of what is before it by po≠ and hb, so that "po≠, then hb, then
//! po≠" to b is that one row.

use crate::rows::Row;
use crate::tuned_cycles::{least_cycle, Cycle};
use crate::tuned_room::{Room, Sets, INIT, LOCATIONS, NONE};

impl<const W: usize, const N: usize> Room<W, N> {
    /// The least cycle. `back` says whether any step of wb0 goes back in the table.
    #[inline(always)]
    pub fn find_sc_cycle(
        &mut self,
        n: usize,
        sets: &Sets<W>,
        writes: &[Row<W>; LOCATIONS],
        back: bool,
    ) -> Option<Cycle> {
        for &of_location in writes {
            if of_location.and(sets.sc).is_empty() {
                continue;
            }
            if back {
                self.close_wb(of_location, sets.sc);
            } else {
                self.close_rising_wb(of_location);
            }
        }
        self.find_ways_around(n);
        if self.gather_sc_steps(sets.sc) {
            least_cycle(&self.sc_steps, &mut self.layers, sets.sc)
        } else {
            None
        }
    }

    /// wb among the writes of one location, and whom the SC ones overtake.
    #[inline(always)]
    fn close_wb(&mut self, writes: Row<W>, sc: Row<W>) {
        writes.each(|w| self.wb[w] = self.wb0[w]);
        writes.each(|middle| {
            let before = self.wb[middle];
            writes.each(|w| {
                if self.wb[w].has(middle) {
                    self.wb[w] = self.wb[w].or(before);
                }
            });
        });
        writes.and(sc).each(|w| {
            let mut overtaken = Row::EMPTY;
            self.wb[w].each(|source| overtaken = overtaken.or(self.readers[source]));
            self.overtaken[w] = overtaken;
        });
    }

    /// The same where each step of wb0 goes on in the table: each row follows from rows that are done.
    #[inline(always)]
    fn close_rising_wb(&mut self, writes: Row<W>) {
        writes.each(|w| {
            let (mut wb, mut overtaken) = (Row::EMPTY, Row::EMPTY);
            let mut left = self.wb0[w];
            while let Some(last) = left.highest() {
                wb = wb.or(self.wb[last]).with(last);
                overtaken = overtaken.or(self.overtaken[last]).or(self.readers[last]);
                left = left.without(wb);
            }
            self.wb[w] = wb;
            self.overtaken[w] = overtaken;
        });
    }

    /// po≠, and po≠ then hb, to each record.
    #[inline(always)]
    fn find_ways_around(&mut self, n: usize) {
        self.apart[0] = Row::EMPTY;
        self.around[0] = Row::EMPTY;
        for b in 1..n {
            let (parent, source) = (self.parent[b] as usize, self.source[b] as usize);
            let mut around = self.around[parent].or(self.apart[parent]);
            if source != NONE && self.synchronises(source, b) {
                around = around.or(self.around[source]).or(self.apart[source]);
            }
            self.around[b] = around;
            self.apart[b] = if self.kind[b] == INIT {
                self.po[b]
            } else {
                self.po[b].without(self.at[self.location[b] as usize])
            };
        }
    }

    /// All steps to each SC record, and whether any goes back in the table, as one of a cycle has to.
    #[inline(always)]
    fn gather_sc_steps(&mut self, sc: Row<W>) -> bool {
        let mut back = false;
        sc.each(|b| {
            let apart = self.apart[b];
            let mut steps = self.hb[b].and(self.at[self.location[b] as usize]).or(apart);
            if let Some(last) = apart.highest() {
                steps = steps.or(self.around[last]);
            }
            if self.writes(b) {
                let mut overtaken = self.overtaken[b];
                overtaken.remove(b);
                steps = steps.or(self.wb[b]).or(overtaken);
            }
            self.sc_steps[b] = steps.and(sc);
            back |= !self.sc_steps[b].and(Row::from(b)).is_empty();
        });
        back
    }
}

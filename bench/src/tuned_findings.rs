//! The findings of a table that the tuned judge has read, in one go through its records.

use crate::rows::Row;
use crate::tuned_cycles::{least_cycle, Cycle};
use crate::tuned_room::{Room, Sets, INIT, LOCATIONS, NA, NONE};

pub type Pair = Option<(usize, usize)>;

#[derive(Default)]
pub struct Findings {
    pub r: Option<usize>,
    pub a1: Option<Cycle>,
    pub a2: Pair,
    pub a3: Pair,
    pub a4: Option<Cycle>,
    pub a5: Pair,
    pub w: Pair,
}

impl Findings {
    pub fn has_another_than_w(&self) -> bool {
        let has_cycle = self.a1.is_some() || self.a4.is_some();
        has_cycle || self.r.is_some() || self.a2.is_some() || self.a3.is_some() || self.a5.is_some()
    }
}

/// Takes the least pair that ends in q, if no pair so far is less. The ends come upward.
#[inline(always)]
fn take_least<const W: usize>(pair: &mut Pair, fits: Row<W>, q: usize) {
    if let Some(p) = fits.lowest() {
        if pair.is_none_or(|(least, _)| p < least) {
            *pair = Some((p, q));
        }
    }
}

impl<const W: usize, const N: usize> Room<W, N> {
    #[inline(always)]
    pub fn find(&mut self, n: usize, sets: &Sets<W>) -> Findings {
        let mut found = Findings::default();
        let mut writes = [Row::EMPTY; LOCATIONS];
        let mut back = false;
        if sets.branched {
            self.find_conflicts(n);
        }
        for b in 1..n {
            let mut cf = Row::EMPTY;
            if sets.branched {
                cf = self.cf[b];
                take_least(&mut found.a2, cf.and(self.hb[b]), b);
            }
            if self.kind[b] != INIT {
                let earlier = &mut writes[self.location[b] as usize];
                back |= self.look_at(b, cf, earlier, sets, &mut found);
            }
        }
        if back {
            found.a1 = least_cycle(&self.wb0, &mut self.layers, sets.writes);
        }
        if !sets.sc.is_empty() {
            found.a4 = self.find_sc_cycle(n, sets, &writes, back);
        }
        if sets.taken_twice {
            found.a5 = self.find_token_taken_twice(sets);
        }
        found
    }

    /// What record b shows together with the earlier writes of its location, to which it is added; and the steps of wb0
    /// that it gives. Whether one of these goes back in the table.
    #[inline(always)]
    fn look_at(
        &mut self,
        b: usize,
        cf: Row<W>,
        earlier: &mut Row<W>,
        sets: &Sets<W>,
        found: &mut Findings,
    ) -> bool {
        let mut racing = earlier.without(self.hb[b]).without(cf);
        if self.order[b] != NA {
            racing = racing.and(sets.na);
        }
        let steps = self.owners[b].and(*earlier);
        let mut back = false;
        if self.reads(b) {
            if found.r.is_none() && !self.is_justified(b, *earlier, racing) {
                found.r = Some(b);
            }
            let source = self.source[b] as usize;
            if source != NONE {
                if sets.branched {
                    take_least(&mut found.a3, self.cf_readers[source].and(self.hb[b]), b);
                }
                let mut handed_on = steps;
                handed_on.remove(source);
                back = !handed_on.and(Row::from(source)).is_empty();
                self.wb0[source] = self.wb0[source].or(handed_on);
            }
        }
        if self.writes(b) {
            take_least(&mut found.w, racing, b);
            self.wb0[b] = steps;
            earlier.add(b);
        }
        back
    }

    #[inline(always)]
    fn is_justified(&self, read: usize, earlier: Row<W>, racing: Row<W>) -> bool {
        let source = self.source[read] as usize;
        if source == NONE {
            earlier.and(self.hb[read]).is_empty() || !racing.is_empty()
        } else {
            self.hb[read].has(source) && racing.is_empty()
        }
    }

    /// The least two updates of one source that are not in conflict: all that go with p have the source of p.
    fn find_token_taken_twice(&self, sets: &Sets<W>) -> Pair {
        let mut left = sets.updates;
        while let Some(p) = left.lowest() {
            left.remove(p);
            let mut others = self.readers[self.source[p] as usize].and(left);
            if sets.branched {
                others = others.without(self.cf[p]);
            }
            if let Some(q) = others.lowest() {
                return Some((p, q));
            }
        }
        None
    }
}

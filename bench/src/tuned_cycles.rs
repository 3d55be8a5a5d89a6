//! The least cycle, as the tuned judge looks for it: among what is left when all that no cycle goes through is taken away.
//!
//! Steps are given by their ends: `steps[b]` has the records with a step to b.

use crate::rows::Row;

/// More records than any table has.
const MOST: usize = 256;

pub struct Cycle {
    length: usize,
    list: [u8; MOST],
}

impl Cycle {
    pub fn records(&self) -> impl Iterator<Item = usize> + '_ {
        self.list[..self.length].iter().map(|&record| record as usize)
    }
}

/// The least of the cycles with the fewest records, all of them among `alive`.
pub fn least_cycle<const W: usize>(
    steps: &[Row<W>],
    layers: &mut [Row<W>],
    mut alive: Row<W>,
) -> Option<Cycle> {
    if !trim(steps, &mut alive) {
        return None;
    }
    let (mut length, mut start) = (usize::MAX, 0);
    alive.each(|first| {
        if let Some(less) = fewest_steps(steps, layers, alive.and(Row::from(first)), first, length) {
            (length, start) = (less, first);
        }
    });
    fewest_steps(steps, layers, alive.and(Row::from(start)), start, usize::MAX)?;
    let mut cycle = Cycle { length, list: [0; MOST] };
    let mut here = start;
    cycle.list[0] = here as u8;
    for position in 1..length {
        here = least_step(steps, here, layers[length - position])?;
        cycle.list[position] = here as u8;
    }
    Some(cycle)
}

/// Takes away, until nothing more goes, what has no step to it or from it. Whether anything is left; every cycle is.
fn trim<const W: usize>(steps: &[Row<W>], alive: &mut Row<W>) -> bool {
    loop {
        let before = *alive;
        let mut left = before;
        let mut test = |b: usize| {
            if steps[b].and(left).is_empty() {
                left.remove(b);
            }
        };
        // Most steps go up or most go down, so that one of the two passes takes away a whole chain.
        before.each(&mut test);
        before.each_downward(&mut test);
        let mut starts = Row::EMPTY;
        left.each(|b| starts = starts.or(steps[b]));
        *alive = left.and(starts);
        if *alive == before || alive.is_empty() {
            return !alive.is_empty();
        }
    }
}

/// The fewest steps from a record back to itself, if they are below `bound`; layer k gets those that need k steps to it.
fn fewest_steps<const W: usize>(
    steps: &[Row<W>],
    layers: &mut [Row<W>],
    alive: Row<W>,
    start: usize,
    bound: usize,
) -> Option<usize> {
    let mut seen = Row::EMPTY;
    let mut layer = steps[start].and(alive);
    let mut count = 1;
    while count < bound && !layer.is_empty() {
        if layer.has(start) {
            return Some(count);
        }
        layers[count] = layer;
        seen = seen.or(layer);
        let mut further = Row::EMPTY;
        layer.each(|b| further = further.or(steps[b]));
        layer = further.and(alive).without(seen);
        count += 1;
    }
    None
}

/// The least record of the layer with a step from this one to it.
fn least_step<const W: usize>(steps: &[Row<W>], from: usize, layer: Row<W>) -> Option<usize> {
    let mut least = None;
    layer.each_downward(|b| {
        if steps[b].has(from) {
            least = Some(b);
        }
    });
    least
}

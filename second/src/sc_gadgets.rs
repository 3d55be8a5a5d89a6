//! Rings of SC records whose steps take the long ways: through flags, Inits and writes in between.

use crate::builder::Builder;

const NA: u8 = 0;
const ACQ: u8 = 1;
const REL: u8 = 2;
const SC: u8 = 4;

/// How a thread's SC store comes before the SC load of the next location.
#[derive(Clone, Copy)]
pub enum Way {
    /// po≠ to a flag, sw, po≠: nothing in between is SC.
    Flag,
    /// po≠ to the Init of a child thread only, as all else in between is of the store's location.
    InitBelow,
}

/// A4 alone, a cycle of twice so many, each SC store before its SC load by a long way.
pub fn long_way_ring(b: &mut Builder, base: u8, length: usize, way: Way) {
    let places: Vec<u8> = (0..length).map(|_| b.location()).collect();
    let mut last = base;
    let mut old = Vec::new();
    for &place in &places {
        last = b.store(NA, last, place, 0);
        old.push(last);
    }
    for i in 0..length {
        let thread = b.thread(last);
        let first = b.store(SC, thread, places[i], 1);
        let told = match way {
            Way::Flag => {
                let flag = b.location();
                b.store(REL, first, flag, 1)
            }
            Way::InitBelow => {
                let child = b.thread(first);
                b.store(REL, child, places[i], 2)
            }
        };
        let listener = b.thread(last);
        let heard = b.load(ACQ, listener, told);
        b.load(SC, heard, old[(i + 1) % length]);
    }
}

/// A4 alone: po≠ from an Init into an SC store, as all else above it is of its location.
pub fn init_above_ring(b: &mut Builder, base: u8) {
    let places = [b.location(), b.location()];
    let mut firsts = Vec::new();
    let mut seconds = Vec::new();
    for i in 0..2 {
        let thread = b.thread(base);
        let first = b.store(SC, thread, places[i], 1);
        let told = b.store(REL, first, places[1 - i], 3);
        let listener = b.thread(base);
        let heard = b.load(ACQ, listener, told);
        let child = b.thread(heard);
        seconds.push(b.store(SC, child, places[1 - i], 4));
        firsts.push(first);
    }
    for i in 0..2 {
        b.load(ACQ, seconds[i], firsts[1 - i]);
    }
}

/// A4 alone: fr by two steps of wb0. Each SC load reads a store that is before a middle one, which
/// is before the SC store of that location.
pub fn far_fr_ring(b: &mut Builder, base: u8, length: usize) {
    let mut stores = Vec::new();
    for _ in 0..length {
        let place = b.location();
        let three: Vec<u8> = [(REL, 0), (REL, 2), (SC, 1)]
            .iter()
            .map(|&(order, value)| {
                let thread = b.thread(base);
                b.store(order, thread, place, value)
            })
            .collect();
        stores.push(three);
    }
    for i in 0..length {
        b.load(ACQ, stores[i][0], stores[i][1]);
        b.load(ACQ, stores[i][1], stores[i][2]);
        b.load(SC, stores[i][2], stores[(i + 1) % length][0]);
    }
}

/// A4 alone: wb by one or by two steps of wb0 between SC stores, two stores in each thread.
pub fn two_stores_ring(b: &mut Builder, base: u8, length: usize, far: bool) {
    let places: Vec<u8> = (0..length).map(|_| b.location()).collect();
    let mut ends = Vec::new();
    let mut aims = Vec::new();
    for i in 0..length {
        let thread = b.thread(base);
        let first = b.store(SC, thread, places[i], 1);
        ends.push(b.store(SC, first, places[(i + 1) % length], 2));
        aims.push(first);
    }
    for i in 0..if far { length } else { 0 } {
        let thread = b.thread(base);
        let middle = b.store(REL, thread, places[i], 3);
        b.load(ACQ, middle, aims[i]);
        aims[i] = middle;
    }
    for i in 0..length {
        b.load(ACQ, ends[i], aims[(i + 1) % length]);
    }
}

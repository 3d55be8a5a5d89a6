//! Patterns that hold one chosen finding, in sizes chosen too, and the tables made of them.

use crate::builder::Builder;
use crate::findings::FINDINGS;
use crate::record::{load_u, put_written, Bytes};
use crate::sc_gadgets::{far_fr_ring, init_above_ring, long_way_ring, two_stores_ring, Way};
use crate::update_gadgets::{taken_twice, update_tables};

const NA: u8 = 0;
const ACQ: u8 = 1;
const REL: u8 = 2;
const SC: u8 = 4;

/// R, as in E6.
pub fn unjustified(b: &mut Builder, base: u8) {
    let x = b.location();
    let write = b.store(NA, base, x, 0);
    b.load(NA, write, write);
    b.load_u(NA, write, x);
}

/// A1 alone, a cycle of so many: thread i stores, then reads what thread i + 1 stored.
pub fn store_ring(b: &mut Builder, base: u8, length: usize, store_order: u8, load_order: u8) {
    let x = b.location();
    let inits: Vec<u8> = (0..length).map(|_| b.thread(base)).collect();
    let stores: Vec<u8> =
        inits.iter().enumerate().map(|(i, &t)| b.store(store_order, t, x, i as u16)).collect();
    for i in 0..length {
        b.load(load_order, stores[i], stores[(i + 1) % length]);
    }
}

/// A1 (with R), a cycle of so many, up to 30: arms of one branch, each reading the
/// store of the arm before; the last arm reads the last store, then the first.
pub fn arm_ring(b: &mut Builder, base: u8, length: usize) {
    let x = b.location();
    let mut read = b.load_u(NA, base, x);
    let first = b.store(NA, read, x, 0);
    let mut write = first;
    for arm in 1..length {
        read = b.load(NA, base, write);
        write = b.store(NA, read, x, arm as u16);
    }
    read = b.load(NA, base, write);
    b.load(NA, read, first);
}

/// A2, as in E2.
pub fn conflict_before(b: &mut Builder, base: u8) {
    let x = b.location();
    let one = b.store(REL, base, x, 0);
    let read = b.load(ACQ, one, one);
    let other = b.store(REL, read, x, 1);
    b.load(ACQ, one, other);
}

/// A3, as in E10.
pub fn conflicting_sources(b: &mut Builder, base: u8) {
    let (x, y, z) = (b.location(), b.location(), b.location());
    let old = b.store(NA, base, z, 0);
    let (writer, brancher, reader) = (b.thread(old), b.thread(old), b.thread(old));
    let new = b.store(REL, writer, z, 1);
    let arm = b.load(ACQ, brancher, old);
    let other_arm = b.load(ACQ, brancher, new);
    let first = b.store(REL, arm, x, 1);
    let second = b.store(REL, other_arm, y, 1);
    let read = b.load(ACQ, reader, first);
    b.load(ACQ, read, second);
}

/// A4 alone: E3 with so many threads, a cycle of twice as many; one more if a third thread watches
/// the first store instead of the storing thread going on itself.
pub fn sc_ring(b: &mut Builder, base: u8, threads: usize, watched: bool) {
    sc_ring_with(b, base, threads, if watched { First::Watched } else { First::Started });
}

/// The same cycle in one record less: the thread that the others start from is one of them.
pub fn home_sc_ring(b: &mut Builder, base: u8, threads: usize) {
    sc_ring_with(b, base, threads, First::AtHome);
}

/// Where the first two records of a ring of SC records stand.
#[derive(Clone, Copy, PartialEq, Eq)]
enum First {
    /// In a thread of their own.
    Started,
    /// Each in a thread of its own.
    Watched,
    /// In the thread that starts the others.
    AtHome,
}

fn sc_ring_with(b: &mut Builder, base: u8, threads: usize, first: First) {
    let places: Vec<u8> = (0..threads).map(|_| b.location()).collect();
    let mut last = base;
    let old: Vec<u8> = places
        .iter()
        .map(|&place| {
            last = b.store(NA, last, place, 0);
            last
        })
        .collect();
    for i in 0..threads {
        let thread = if i == 0 && first == First::AtHome { last } else { b.thread(last) };
        let mut here = b.store(SC, thread, places[i], 1);
        if i == 0 && first == First::Watched {
            let watcher = b.thread(last);
            here = b.load(SC, watcher, here);
        }
        b.load(SC, here, old[(i + 1) % threads]);
    }
}

/// A4 alone, a cycle of so many updates, each of another store, by fr steps only.
pub fn update_ring(b: &mut Builder, base: u8, length: usize) {
    let x = b.location();
    let inits: Vec<u8> = (0..length).map(|_| b.thread(base)).collect();
    let stores: Vec<u8> = inits.iter().enumerate().map(|(i, &t)| b.store(REL, t, x, i as u16)).collect();
    let updates: Vec<u8> =
        stores.iter().enumerate().map(|(i, &s)| b.update(SC, base, s, 100 + i as u16)).collect();
    for i in 0..length {
        b.load(ACQ, stores[i], updates[(i + 1) % length]);
    }
}

/// A4, a cycle of two, and A5: two SC updates of one store.
pub fn double_update(b: &mut Builder, base: u8) {
    let x = b.location();
    let write = b.store(SC, base, x, 0);
    let (one, other) = (b.thread(write), b.thread(write));
    b.update(SC, one, write, 1);
    b.update(SC, other, write, 2);
}

/// W, as in E5.
pub fn racing_writes(b: &mut Builder, base: u8) {
    let x = b.location();
    let (one, other) = (b.thread(base), b.thread(base));
    b.store(NA, one, x, 1);
    b.store(NA, other, x, 2);
}

/// Consistent, with two reads of E8 that stand on a race.
pub fn standing_on_races(b: &mut Builder, base: u8) {
    let (x, y) = (b.location(), b.location());
    let old_x = b.store(NA, base, x, 0);
    let old_y = b.store(NA, old_x, y, 0);
    let (one, other) = (b.thread(old_y), b.thread(old_y));
    let read = b.load(NA, one, old_x);
    b.load(NA, other, old_y);
    b.store(NA, read, y, 1);
    let racing = b.load_u(NA, other, y);
    b.store(NA, racing, x, 1);
    let racing_back = b.load_u(NA, one, x);
    b.store(NA, racing_back, y, 1);
}

/// A read that stands on a race with three writes, and one of a location that no write is before,
/// which races and doesn't stand on it.
pub fn several_racing(b: &mut Builder, base: u8) {
    let (x, y) = (b.location(), b.location());
    let old = b.store(NA, base, x, 0);
    for value in 1..=2 {
        let writer = b.thread(old);
        b.store(REL, writer, x, value);
    }
    let updater = b.thread(old);
    b.update(SC, updater, old, 3);
    let other = b.thread(old);
    b.store(REL, other, y, 1);
    let reader = b.thread(old);
    let first = b.load_u(NA, reader, x);
    b.load_u(NA, first, y);
}

/// Consistent: u is written and read, and a flag hands it on.
pub fn message(b: &mut Builder, base: u8) {
    let (data, flag) = (b.location(), b.location());
    let write = b.store(NA, base, data, 0);
    put_written(&mut b.table[write as usize], None);
    let done = b.store(REL, write, flag, 1);
    let reader = b.thread(base);
    let seen = b.load(ACQ, reader, done);
    let thread = b.thread_of(seen);
    b.push(load_u(NA, thread, seen, write, data));
}

/// R at the end of a chain of so many records (at least 3): the first one's write is far above.
pub fn far_read(size: usize) -> Vec<Bytes> {
    let mut b = Builder::default();
    let (x, filler) = (b.location(), b.location());
    let mut last = b.store(NA, 0, x, 1);
    while b.table.len() + 1 < size {
        last = b.load_u(NA, last, filler);
    }
    b.load_u(NA, last, x);
    b.table
}

/// A read at the end that stands on a race, the write of its location being so far above.
pub fn far_standing(fillers: usize) -> Vec<Bytes> {
    let mut b = Builder::default();
    let (x, filler) = (b.location(), b.location());
    let mut last = b.store(NA, 0, x, 1);
    for _ in 0..fillers {
        last = b.load_u(NA, last, filler);
    }
    let (writer, reader) = (b.thread(last), b.thread(last));
    b.store(NA, writer, x, 2);
    b.load_u(NA, reader, x);
    b.table
}

/// R at the end of a relay: each thread waits for the one before and tells the next.
pub fn relay(threads: usize) -> Vec<Bytes> {
    let mut b = Builder::default();
    let x = b.location();
    let write = b.store(NA, 0, x, 1);
    let flag = b.location();
    let mut told = b.store(REL, write, flag, 0);
    let inits: Vec<u8> = (0..threads).map(|_| b.thread(0)).collect();
    for init in inits {
        let heard = b.load(ACQ, init, told);
        let flag = b.location();
        told = b.store(REL, heard, flag, 0);
    }
    b.load_u(NA, told, x);
    b.table
}

/// The pattern of one finding, numbered as R, A1, A2, A3, A4, A5, W, in threads of its own. All seven
/// and thread 0 take the sixteen threads that there are.
pub fn add_finding(b: &mut Builder, finding: usize) {
    match finding {
        1 => return store_ring(b, 0, 2, REL, ACQ),
        6 => return racing_writes(b, 0),
        _ => {}
    }
    let base = b.thread(0);
    match finding {
        0 => unjustified(b, base),
        2 => conflict_before(b, base),
        3 => conflicting_sources(b, base),
        4 => sc_ring(b, base, 2, false),
        _ => taken_twice(b, base),
    }
}

/// Tables that hold each set of findings, then each finding twice.
pub fn finding_sets() -> Vec<Vec<Bytes>> {
    let mut tables = Vec::new();
    for set in 0..1 << FINDINGS.len() {
        let mut b = Builder::default();
        (0..FINDINGS.len()).filter(|finding| set >> finding & 1 == 1).for_each(|f| add_finding(&mut b, f));
        tables.push(b.table);
    }
    for finding in 0..FINDINGS.len() {
        let mut b = Builder::default();
        add_finding(&mut b, finding);
        add_finding(&mut b, finding);
        tables.push(b.table);
    }
    tables
}

/// Tables with cycles of every length that the patterns reach, with long chains, and with updates.
pub fn sized_tables() -> Vec<Vec<Bytes>> {
    let mut tables = Vec::new();
    let mut add = |build: &dyn Fn(&mut Builder)| {
        let mut b = Builder::default();
        build(&mut b);
        tables.push(b.table);
    };
    for length in 2..=15 {
        add(&|b| store_ring(b, 0, length, REL, ACQ));
        add(&|b| store_ring(b, 0, length, SC, SC));
        add(&|b| store_ring(b, 0, length, NA, NA));
        add(&|b| sc_ring(b, 0, length, false));
    }
    (2..=30).for_each(|length| add(&|b| arm_ring(b, 0, length)));
    (2..=14).for_each(|threads| add(&|b| sc_ring(b, 0, threads, true)));
    (3..=15).for_each(|length| add(&|b| update_ring(b, 0, length)));
    for length in 2..=5 {
        add(&|b| far_fr_ring(b, 0, length));
        add(&|b| long_way_ring(b, 0, length, Way::Flag));
        add(&|b| long_way_ring(b, 0, length, Way::InitBelow));
        add(&|b| two_stores_ring(b, 0, length, false));
        add(&|b| two_stores_ring(b, 0, length, true));
    }
    add(&|b| init_above_ring(b, 0));
    add(&|b| several_racing(b, 0));
    add(&|b| double_update(b, 0));
    add(&|b| standing_on_races(b, 0));
    add(&|b| message(b, 0));
    tables.extend((3..=64).map(far_read));
    tables.extend((1..=15).map(relay));
    tables.extend((0..=58).step_by(6).map(far_standing));
    tables.extend(update_tables());
    tables
}

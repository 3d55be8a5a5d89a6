//! Patterns of updates that take one token, or only seem to: what finding A5 is about.

use crate::builder::Builder;
use crate::record::{load_u, put_written, update_u, Bytes};
use Place::{Apart, Arm, Below};

const NA: u8 = 0;
const ACQ: u8 = 1;
const REL: u8 = 2;
const AR: u8 = 3;
const SC: u8 = 4;

/// A5 alone in two threads: the thread that stored takes the token, and so does a thread that it started.
pub fn taken_twice(b: &mut Builder, base: u8) {
    let x = b.location();
    let token = b.store(REL, base, x, 0);
    let other = b.thread(token);
    b.update(AR, token, token, 1);
    b.update(AR, other, token, 1);
}

/// One store and its readers, each in a thread of its own: a load for ACQ, else an update of that order.
/// A5 if two are updates, with A4 if two are SC; else consistent. The numbers of the readers.
pub fn readers(b: &mut Builder, base: u8, orders: &[u8]) -> Vec<u8> {
    let x = b.location();
    let token = b.store(REL, base, x, 0);
    let inits: Vec<u8> = orders.iter().map(|_| b.thread(token)).collect();
    let add = |(&order, init)| match order {
        ACQ => b.load(ACQ, init, token),
        _ => b.update(order, init, token, 1),
    };
    orders.iter().zip(inits).map(add).collect()
}

/// The readers of one store in the tables below.
pub const READERS: [&[u8]; 12] = [
    &[AR, AR],
    &[AR, SC],
    &[SC, AR],
    &[SC, SC],
    &[AR, AR, AR],
    &[SC, AR, SC, AR],
    &[AR; 15],
    &[ACQ, AR, AR],
    &[ACQ, AR],
    &[AR, ACQ],
    &[ACQ, ACQ],
    &[ACQ, AR, ACQ],
];

/// Where an update stands.
#[derive(Clone, Copy, Debug)]
pub enum Place {
    /// In a thread of its own.
    Apart,
    /// On this arm of a branch of three: one update to an arm, or refusal 8 would meet the next.
    Arm(usize),
    /// In a thread started on this arm.
    Below(usize),
}

/// Every two updates in conflict: consistent.
pub const ALL_IN_CONFLICT: [&[Place]; 6] = [
    &[Arm(0), Arm(1)],
    &[Below(0), Below(1)],
    &[Arm(0), Below(1)],
    &[Below(0), Arm(1)],
    &[Arm(0), Arm(1), Arm(2)],
    &[Below(2), Below(1), Below(0)],
];

/// A5 alone, and which two of the updates are the least pair.
pub const NOT_ALL_IN_CONFLICT: [(&[Place], [usize; 2]); 12] = [
    (&[Arm(0), Below(0)], [0, 1]),
    (&[Below(0), Below(0)], [0, 1]),
    (&[Apart, Arm(0), Arm(1)], [0, 1]),
    (&[Arm(0), Apart, Arm(1)], [0, 1]),
    (&[Arm(0), Arm(1), Apart], [0, 2]),
    (&[Below(0), Below(1), Below(0)], [0, 2]),
    (&[Arm(0), Below(1), Below(1)], [1, 2]),
    (&[Below(0), Below(1), Below(1)], [1, 2]),
    (&[Arm(0), Arm(1), Arm(2), Apart], [0, 3]),
    (&[Below(0), Below(1), Below(1), Below(0)], [0, 3]),
    (&[Below(0), Below(1), Below(2), Below(1)], [1, 3]),
    (&[Arm(0), Arm(1), Below(2), Below(2)], [2, 3]),
];

/// One store and an update of it at each place. The numbers of the updates.
pub fn on_arms(b: &mut Builder, base: u8, places: &[Place]) -> Vec<u8> {
    let x = b.location();
    let token = b.store(REL, base, x, 0);
    let arms = branch_of_three(b, token);
    let add = |&place: &Place| {
        let parent = match place {
            Apart => b.thread(token),
            Arm(arm) => arms[arm],
            Below(arm) => b.thread(arms[arm]),
        };
        b.update(AR, parent, token, 1)
    };
    places.iter().map(add).collect()
}

/// The arms of a branch: a thread whose first read sees one of three stores of another thread.
fn branch_of_three(b: &mut Builder, base: u8) -> Vec<u8> {
    let flag = b.location();
    let (writer, reader) = (b.thread(base), b.thread(base));
    let mut last = writer;
    let mut arms = Vec::new();
    for value in 0..3 {
        last = b.store(REL, last, flag, value);
        arms.push(b.load(ACQ, reader, last));
    }
    arms
}

/// Consistent: two updates of one store are themselves the arms of a branch, as one reads u from it.
pub fn arms_of_token(b: &mut Builder, base: u8) {
    let x = b.location();
    let token = b.store(REL, base, x, 0);
    b.update(AR, token, token, 1);
    b.push(update_u(AR, b.thread_of(token), token, token, x, 1));
}

/// A5 alone: one of two updates of a store reads u from it, or both where the store wrote u.
pub fn token_read_as_u(b: &mut Builder, base: u8, writes_u: bool) {
    let x = b.location();
    let token = b.store(REL, base, x, 0);
    let (one, other) = (b.thread(token), b.thread(token));
    if writes_u {
        put_written(&mut b.table[token as usize], None);
        b.push(update_u(AR, b.thread_of(one), one, token, x, 1));
    } else {
        b.update(AR, one, token, 1);
    }
    b.push(update_u(AR, b.thread_of(other), other, token, x, 1));
}

/// R, A5 and W: two updates of a store of another thread that is not before them.
pub fn token_not_before(b: &mut Builder, base: u8) {
    let x = b.location();
    let inits: Vec<u8> = (0..3).map(|_| b.thread(base)).collect();
    let token = b.store(NA, inits[0], x, 0);
    inits[1..].iter().for_each(|&init| _ = b.update(AR, init, token, 1));
}

/// Consistent: so many updates that read u from nothing, and one that reads u from a store.
pub fn without_source(b: &mut Builder, base: u8, updates: usize) {
    let x = b.location();
    let inits: Vec<u8> = (0..=updates).map(|_| b.thread(base)).collect();
    let token = b.store(REL, inits[0], x, 0);
    b.push(update_u(AR, b.thread_of(token), token, token, x, 1));
    inits[1..].iter().for_each(|&init| _ = b.update_u(AR, init, x, 1));
}

/// Consistent: two updates at one location read one value, each from a store of its own.
pub fn two_tokens_alike(b: &mut Builder, base: u8) {
    let x = b.location();
    let inits: Vec<u8> = (0..4).map(|_| b.thread(base)).collect();
    let tokens = [b.store(REL, inits[0], x, 0), b.store(REL, inits[1], x, 0)];
    b.update(AR, inits[2], tokens[0], 1);
    b.update(AR, inits[3], tokens[1], 1);
}

/// Locks that hold: threads, takes and order.
pub const LOCKS: [(usize, usize, u8); 8] =
    [(1, 2, AR), (2, 2, AR), (2, 2, SC), (2, 9, AR), (3, 30, SC), (1, 61, AR), (2, 60, AR), (15, 47, SC)];

/// Consistent, a lock that holds: threads in turn take the token, which each update leaves to the next,
/// so many times. The numbers of the updates.
pub fn lock(b: &mut Builder, base: u8, threads: usize, takes: usize, order: u8) -> Vec<u8> {
    let x = b.location();
    let token = b.store(REL, base, x, 0);
    let ends = (0..threads).map(|_| b.thread(token)).collect();
    take_in_turn(b, &[token], ends, takes, order)
}

/// Updates below these records in turn, so many, each below the last one there. The first ones take the tokens, one
/// each, and then each takes what was written as many takes before as there are tokens. The numbers of the updates.
pub fn take_in_turn(b: &mut Builder, tokens: &[u8], mut ends: Vec<u8>, takes: usize, order: u8) -> Vec<u8> {
    let mut written = tokens.to_vec();
    for take in 0..takes {
        let end = take % ends.len();
        ends[end] = b.update(order, ends[end], written[take], written.len() as u16);
        written.push(ends[end]);
    }
    written.split_off(tokens.len())
}

/// Locks that hold by releases: threads and takes.
pub const RELEASED_LOCKS: [(usize, usize); 4] = [(2, 2), (3, 7), (2, 30), (15, 23)];

/// Consistent, a lock that holds: each update takes 0, and its thread stores 0 again for the next.
pub fn released_lock(b: &mut Builder, base: u8, threads: usize, takes: usize) {
    let x = b.location();
    let mut token = b.store(REL, base, x, 0);
    let mut ends: Vec<u8> = (0..threads).map(|_| b.thread(token)).collect();
    for take in 0..takes {
        let taken = b.update(AR, ends[take % threads], token, 1);
        token = b.store(REL, taken, x, 0);
        ends[take % threads] = token;
    }
}

/// Locks that don't hold: threads, takes, and which of these is taken again.
pub const BROKEN_LOCKS: [(usize, usize, usize); 6] =
    [(2, 4, 0), (2, 4, 1), (2, 4, 3), (3, 20, 10), (14, 46, 0), (2, 58, 57)];

/// A5 alone: a lock that holds but for one more thread at the end, which takes again what this take took.
/// The pair of updates.
pub fn broken_lock(b: &mut Builder, base: u8, threads: usize, takes: usize, again: usize) -> [u8; 2] {
    let updates = lock(b, base, threads, takes, AR);
    let taken = updates[again];
    let token = b.table[taken as usize][6];
    let late = b.thread(base);
    [taken, b.update(AR, late, token, 100)]
}

/// A1 and A5: a store, an update of it, and an update of the same store so many records below.
pub fn one_above(b: &mut Builder, base: u8, between: usize) -> [u8; 2] {
    let x = b.location();
    let token = b.store(REL, base, x, 0);
    let above = b.update(AR, token, token, 1);
    let last = fill(b, above, between);
    [above, b.update(AR, last, token, 2)]
}

/// So many records in a row, the first and then each fifth the start of a thread while there are any. The last one.
fn fill(b: &mut Builder, from: u8, records: usize) -> u8 {
    let filler = b.location();
    let mut last = from;
    for number in 0..records {
        let starts = number % 5 == 0 && b.has_thread();
        last = if starts { b.thread(last) } else { b.load_u(NA, last, filler) };
    }
    last
}

/// A5 alone in so many records, 6 or more: at record 3, and at the last one, which is far below the store.
pub fn far_apart(size: usize) -> Vec<Bytes> {
    let mut b = Builder::default();
    let x = b.location();
    let token = b.store(REL, 0, x, 0);
    let one = b.thread(token);
    b.update(AR, one, token, 1);
    let other = b.thread(token);
    let last = fill(&mut b, other, size - 6);
    b.update(AR, last, token, 1);
    b.table
}

/// Consistent, in so many records, 5 or more: the first update is itself an arm, and the last record is an
/// update far below the other arm, in a thread started there.
pub fn far_conflict(size: usize) -> Vec<Bytes> {
    let mut b = Builder::default();
    let x = b.location();
    let token = b.store(REL, 0, x, 0);
    b.update(AR, token, token, 1);
    let other_arm = b.push(load_u(ACQ, b.thread_of(token), token, token, x));
    let last = fill(&mut b, other_arm, size - 5);
    b.update(AR, last, token, 1);
    b.table
}

/// The tables of all these patterns, in several sizes.
pub fn update_tables() -> Vec<Vec<Bytes>> {
    let mut tables = Vec::new();
    let mut add = |build: &dyn Fn(&mut Builder)| {
        let mut b = Builder::default();
        build(&mut b);
        tables.push(b.table);
    };
    READERS.iter().for_each(|orders| add(&|b| _ = readers(b, 0, orders)));
    ALL_IN_CONFLICT.iter().for_each(|places| add(&|b| _ = on_arms(b, 0, places)));
    NOT_ALL_IN_CONFLICT.iter().for_each(|(places, _)| add(&|b| _ = on_arms(b, 0, places)));
    add(&|b| arms_of_token(b, 0));
    [false, true].iter().for_each(|&writes_u| add(&|b| token_read_as_u(b, 0, writes_u)));
    add(&|b| token_not_before(b, 0));
    [1, 2, 3].iter().for_each(|&updates| add(&|b| without_source(b, 0, updates)));
    add(&|b| two_tokens_alike(b, 0));
    LOCKS.iter().for_each(|&(threads, takes, order)| add(&|b| _ = lock(b, 0, threads, takes, order)));
    RELEASED_LOCKS.iter().for_each(|&(threads, takes)| add(&|b| released_lock(b, 0, threads, takes)));
    for &(threads, takes, again) in &BROKEN_LOCKS {
        add(&|b| _ = broken_lock(b, 0, threads, takes, again));
    }
    [0, 1, 5, 20, 59].iter().for_each(|&between| add(&|b| _ = one_above(b, 0, between)));
    tables.extend([6, 11, 20, 40, 64].map(far_apart));
    tables.extend([5, 6, 12, 20, 40, 64].map(far_conflict));
    tables
}

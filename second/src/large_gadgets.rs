//! Large patterns: tables of so many records, 65 or more, in which records far apart decide what is found.

use crate::builder::{Builder, THREADS};
use crate::gadgets::{far_read, far_standing};
use crate::grow::shuffle;
use crate::random::Random;
use crate::record::{load_u, Bytes};
use crate::update_gadgets::{far_apart, far_conflict};

const NA: u8 = 0;
const ACQ: u8 = 1;
const REL: u8 = 2;
const AR: u8 = 3;
const SC: u8 = 4;

/// The number of records from which a table is large: those that document 01 refused and request W5 takes.
pub const LEAST_LARGE: usize = 65;

/// The sizes of the patterns: the least, those around what seven bits can tell, and those up to the limit.
pub const SIZES: [usize; 6] = [LEAST_LARGE, 127, 128, 129, 199, 200];

/// A table made for what it shows.
pub struct Pattern {
    pub name: String,
    pub table: Vec<Bytes>,
    /// The findings that hold, in the report's order.
    pub findings: &'static [&'static str],
    /// The finding whose cycle is long, and how many records it has.
    pub cycle: Option<(&'static str, usize)>,
    /// Whether another order of the records is another table with the same findings.
    pub can_be_relisted: bool,
}

impl Pattern {
    /// The same records in another order.
    pub fn relisted(&self, random: &mut Random) -> Vec<Bytes> {
        loop {
            let table = shuffle(random, &self.table);
            if table != self.table {
                return table;
            }
        }
    }
}

/// A pattern without a long cycle, whose records stand in one order only.
pub fn fixed(name: &str, findings: &'static [&'static str], table: Vec<Bytes>) -> Pattern {
    Pattern { name: name.to_string(), table, findings, cycle: None, can_be_relisted: false }
}

/// A pattern without a long cycle, whose records can be listed otherwise.
pub fn free(name: &str, findings: &'static [&'static str], table: Vec<Bytes>) -> Pattern {
    Pattern { can_be_relisted: true, ..fixed(name, findings, table) }
}

/// Every pattern with so many records, 65 or more.
pub fn patterns(size: usize) -> Vec<Pattern> {
    let (arm_ring, sc_arm_ring) = (long_arm_ring(size), sc_arm_ring(size));
    vec![
        fixed("chain", &["R"], far_read(size)),
        free("relay", &["R"], long_relay(size, THREADS as usize - 1)),
        Pattern { cycle: Some(("A1", arm_ring.1)), ..fixed("ring of arms", &["R", "A1", "A3"], arm_ring.0) },
        Pattern { cycle: Some(("A4", sc_arm_ring.1)), ..free("ring of SC arms", &["A4"], sc_arm_ring.0) },
        free("wide branch", &["W"], wide(size, 14)),
        free("tree of threads", &["W"], thread_tree(size, THREADS as usize)),
        free("threads below each other", &["W"], nested_threads(size, THREADS as usize - 1)),
        free("updates far apart", &["A5"], far_apart(size)),
        free("updates far apart in conflict", &[], far_conflict(size)),
        fixed("read that stands on a race", &[], far_standing(size - 6)),
    ]
}

/// Loads of u in a row, as many as the table then lacks no more. The last record of the row.
fn fill_up(b: &mut Builder, from: u8, location: u8, size: usize) -> u8 {
    let missing = size - b.table.len();
    fill(b, from, location, missing)
}

/// So many loads of u in a row, of a location that nobody writes. The last one.
fn fill(b: &mut Builder, from: u8, location: u8, records: usize) -> u8 {
    (0..records).fold(from, |last, _| b.load_u(NA, last, location))
}

/// So many releasing stores of one location in a row, each of another value.
pub fn stores_in_a_row(b: &mut Builder, from: u8, location: u8, count: usize) -> Vec<u8> {
    let mut last = from;
    let mut add = |value| {
        last = b.store(REL, last, location, value as u16);
        last
    };
    (0..count).map(&mut add).collect()
}

/// R at the last record: the write of its location is before it by flags only, which so many threads hand on in turn.
pub fn long_relay(size: usize, threads: usize) -> Vec<Bytes> {
    let mut b = Builder::default();
    let (x, filler) = (b.location(), b.location());
    let flags: Vec<u8> = (0..16).map(|_| b.location()).collect();
    let write = b.store(NA, 0, x, 1);
    let mut told = b.store(REL, write, flags[0], 0);
    let mut ends: Vec<u8> = (0..threads).map(|_| b.thread(0)).collect();
    // A load and a store in each turn, and the last read.
    for turn in 0..(size - b.table.len() - 1) / 2 {
        let end = turn % ends.len();
        let heard = b.load(ACQ, ends[end], told);
        told = b.store(REL, heard, flags[(turn + 1) % flags.len()], turn as u16);
        ends[end] = told;
    }
    let last = fill_up(&mut b, told, filler, size - 1);
    b.load_u(NA, last, x);
    b.table
}

/// A1 (with R and A3), the longest cycle that the patterns reach with so many records, and its length: the arms of one
/// branch, each reading the write of the arm before; the last one reads the last write, then the first.
pub fn long_arm_ring(size: usize) -> (Vec<Bytes>, usize) {
    let length = (size - 2) / 2;
    let mut b = Builder::default();
    let (x, filler) = (b.location(), b.location());
    // An update is an arm by itself.
    let first = b.update_u(AR, 0, x, 0);
    let mut write = first;
    for arm in 1..length {
        let read = b.load(NA, 0, write);
        write = b.store(NA, read, x, arm as u16);
    }
    let read = b.load(NA, 0, write);
    let end = b.load(NA, read, first);
    fill_up(&mut b, end, filler, size);
    (b.table, length)
}

/// A4 alone, and the length of its cycle, two records for each arm: E3 with the arms of one branch as its threads.
pub fn sc_arm_ring(size: usize) -> (Vec<Bytes>, usize) {
    let arms = ((size - 2) / 5).min(30);
    let mut b = Builder::default();
    let (filler, flag) = (b.location(), b.location());
    let places: Vec<u8> = (0..arms).map(|_| b.location()).collect();
    let mut last = 0;
    let mut old = Vec::new();
    for &place in &places {
        last = b.store(NA, last, place, 0);
        old.push(last);
    }
    // Below all that is old, and not below the flags, of which it may see any.
    let reader = b.thread(last);
    let flags = stores_in_a_row(&mut b, last, flag, arms);
    for arm in 0..arms {
        let read = b.load(ACQ, reader, flags[arm]);
        let new = b.store(SC, read, places[arm], 1);
        last = b.load(SC, new, old[(arm + 1) % arms]);
    }
    fill_up(&mut b, last, filler, size);
    (b.table, 2 * arms)
}

/// W alone, at the last two of so many NA stores: each is in a thread started on an arm of one wide branch, and
/// only these two on the same arm.
pub fn wide(size: usize, starters: usize) -> Vec<Bytes> {
    let arms = (size - 2 - 2 * starters) / 2;
    let mut b = Builder::default();
    let (x, filler, flag) = (b.location(), b.location(), b.location());
    let flags = stores_in_a_row(&mut b, 0, flag, arms);
    let reader = b.thread(0);
    let arms: Vec<u8> = flags.iter().map(|&told| b.load(ACQ, reader, told)).collect();
    let mut last = reader;
    for starter in 0..starters {
        let thread = b.thread(arms[starter.min(starters - 2)]);
        last = b.store(NA, thread, x, starter as u16);
    }
    fill_up(&mut b, last, filler, size);
    b.table
}

/// A branch of two below this record: a load of the token's value and one that reads u from it.
fn two_arms(b: &mut Builder, above: u8, token: u8) -> [u8; 2] {
    let location = b.table[token as usize][7];
    let known = b.load(ACQ, above, token);
    [known, b.push(load_u(ACQ, b.thread_of(above), above, token, location))]
}

/// W alone. Each thread has a branch of two, and starts a thread on each arm until there are so many, an even number; the
/// half that start none store at one location, far below a branch of their own, and so does the thread that started but
/// one, on the arm where it did: only these two are not in conflict.
pub fn thread_tree(size: usize, threads: usize) -> Vec<Bytes> {
    let mut b = Builder::default();
    let (x, filler, t) = (b.location(), b.location(), b.location());
    let token = b.store(REL, 0, t, 0);
    let mut arms = vec![two_arms(&mut b, token, token)];
    for thread in 1..threads {
        let started = b.thread(arms[(thread - 1) / 2][(thread - 1) % 2]);
        arms.push(two_arms(&mut b, started, token));
    }
    let (leaves, only_one) = (threads / 2, threads / 2 - 1);
    b.store(NA, arms[only_one][0], x, 0);
    let fillers = size - b.table.len() - leaves;
    for leaf in 0..leaves {
        let share = fillers / leaves + usize::from(leaf < fillers % leaves);
        let last = fill(&mut b, arms[threads - leaves + leaf][1], filler, share);
        b.store(NA, last, x, 1 + leaf as u16);
    }
    b.table
}

/// W alone, at the last two of three NA stores. The first is on one arm of thread 0, and the others are below the other,
/// in the last two of so many threads, each started far below the start of the one before.
pub fn nested_threads(size: usize, started: usize) -> Vec<Bytes> {
    let mut b = Builder::default();
    let (x, filler, t) = (b.location(), b.location(), b.location());
    let token = b.store(REL, 0, t, 0);
    let arms = two_arms(&mut b, token, token);
    b.store(NA, arms[0], x, 0);
    // Their Inits and two stores are not fillers.
    let fillers = size - b.table.len() - started - 2;
    let (mut last, mut before) = (arms[1], arms[1]);
    for thread in 0..started {
        let share = fillers / started + usize::from(thread < fillers % started);
        before = last;
        let init = b.thread(last);
        last = fill(&mut b, init, filler, share);
    }
    b.store(NA, before, x, 1);
    b.store(NA, last, x, 2);
    b.table
}

/// What the last record of a table lacks when one other record is left out.
#[derive(Clone, Copy, Debug, PartialEq, Eq)]
pub enum Lack {
    Parent,
    Source,
    RacingWrite,
}

pub const LACKS: [Lack; 3] = [Lack::Parent, Lack::Source, Lack::RacingWrite];

/// A table of so many records whose last one lacks this if the record told is left out, and which else lacks nothing.
pub fn lacking(size: usize, lack: Lack) -> (Vec<Bytes>, usize) {
    let mut b = Builder::default();
    let (x, filler, flag) = (b.location(), b.location(), b.location());
    let old = b.store(NA, 0, x, 0);
    // Three Inits, two stores and the last record come after it.
    let last = fill_up(&mut b, old, filler, size - 6);
    let (writer, teller, reader) = (b.thread(last), b.thread(last), b.thread(last));
    let racing = b.store(NA, writer, x, 1);
    let told = b.store(REL, teller, flag, 1);
    let left_out = match lack {
        Lack::Parent => {
            b.load_u(NA, reader, filler);
            reader
        }
        Lack::Source => {
            b.load(ACQ, reader, told);
            told
        }
        Lack::RacingWrite => {
            b.load_u(NA, reader, x);
            racing
        }
    };
    (b.table, left_out as usize)
}

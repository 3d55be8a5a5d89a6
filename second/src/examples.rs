//! The small structures E1 to E10 of document 01 and E11 of document 02, as bytes, a batch of them, and a table as large as there may be.

use crate::gadgets::far_read;
use crate::pack::pack;
use crate::record::{init, load, load_u, store, update, Bytes};
use crate::table::MOST_RECORDS;

const NA: u8 = 0;
const ACQ: u8 = 1;
const REL: u8 = 2;
const AR: u8 = 3;
const SC: u8 = 4;
const X: u8 = 0;
const Y: u8 = 1;
const Z: u8 = 2;

/// An example: its name, what it shows, its bytes.
pub struct Example {
    pub name: &'static str,
    pub shows: &'static str,
    pub bytes: Vec<u8>,
}

pub fn examples() -> Vec<Example> {
    let list: [(&'static str, &'static str, Vec<Bytes>); 11] = [
        ("E1", "Init alone: consistent", vec![init(0, 255)]),
        ("E2", "a read on one arm of a branch happens before the other arm: A2 at 2 4 only", e2()),
        ("E3", "two SC stores, each other's location read old: A4 with 4 5 7 8 only", e3()),
        ("E4", "E3 with record 8 reading the new value: consistent", e4()),
        ("E5", "two NA stores of two threads: W at 3 4, undefined", e5()),
        ("E6", "a read of u below a write that it should have seen: R at 3", e6()),
        ("E7", "a read of a location that nobody wrote: consistent", e7()),
        ("E8", "reads that stand on a race, judged by earlier writes only: consistent", e8()),
        ("E9", "two readers see two stores in two orders: A1 with 5 6 only", e9()),
        ("E10", "two reads in a row whose sources conflict: A3 at 10 11 only", e10()),
        ("E11", "two updates take one token: A5 at 4 5 only", e11()),
    ];
    list.into_iter().map(|(name, shows, records)| Example { name, shows, bytes: records.concat() }).collect()
}

/// A chain of as many records as a table may have (W5): its last record is 198 steps of po below the write of its location.
pub fn longest_chain() -> Example {
    Example {
        name: "far",
        shows: "200 records, each the parent of the next; the last is a read of u, 198 steps below the write that it should have seen: R at 199 only",
        bytes: far_read(MOST_RECORDS).concat(),
    }
}

/// The bytes of one example by its name.
pub fn example(name: &str) -> Vec<u8> {
    let found = examples().into_iter().find(|example| example.name == name);
    found.expect("an example of the documents").bytes
}

/// A night's run: E1 to E11, E2 with record 4 as its own parent, and a table without its header.
pub struct Night {
    pub bytes: Vec<u8>,
    /// Where the header is missing.
    pub ends_at: usize,
}

pub fn night() -> Night {
    let mut tables: Vec<Vec<u8>> = examples().into_iter().map(|e| e.bytes).collect();
    let mut own_parent = e2();
    own_parent[4][5] = 4;
    tables.push(own_parent.concat());
    let mut bytes = pack(&tables);
    let ends_at = bytes.len();
    bytes.extend(example("E1"));
    Night { bytes, ends_at }
}

fn e2() -> Vec<Bytes> {
    vec![
        init(0, 255),
        store(REL, 0, 0, X, 0),
        load(ACQ, 0, 1, 1, X, 0),
        store(REL, 0, 2, X, 1),
        load(ACQ, 0, 1, 3, X, 1),
    ]
}

fn e3() -> Vec<Bytes> {
    vec![
        init(0, 255),
        store(NA, 0, 0, X, 0),
        store(NA, 0, 1, Y, 0),
        init(1, 2),
        store(SC, 1, 3, X, 1),
        load(SC, 1, 4, 2, Y, 0),
        init(2, 2),
        store(SC, 2, 6, Y, 1),
        load(SC, 2, 7, 1, X, 0),
    ]
}

fn e4() -> Vec<Bytes> {
    let mut records = e3();
    records[8] = load(SC, 2, 7, 4, X, 1);
    records
}

fn e5() -> Vec<Bytes> {
    vec![init(0, 255), init(1, 0), init(2, 0), store(NA, 1, 1, X, 1), store(NA, 2, 2, X, 2)]
}

fn e6() -> Vec<Bytes> {
    vec![init(0, 255), store(NA, 0, 0, X, 0), load(NA, 0, 1, 1, X, 0), load_u(NA, 0, 1, 255, X)]
}

fn e7() -> Vec<Bytes> {
    vec![init(0, 255), load_u(NA, 0, 0, 255, X)]
}

fn e8() -> Vec<Bytes> {
    vec![
        init(0, 255),
        store(NA, 0, 0, X, 0),
        store(NA, 0, 1, Y, 0),
        init(1, 2),
        init(2, 2),
        load(NA, 1, 3, 1, X, 0),
        load(NA, 2, 4, 2, Y, 0),
        store(NA, 1, 5, Y, 1),
        load_u(NA, 2, 4, 255, Y),
        store(NA, 2, 8, X, 1),
        load_u(NA, 1, 3, 255, X),
        store(NA, 1, 10, Y, 1),
    ]
}

fn e9() -> Vec<Bytes> {
    vec![
        init(0, 255),
        init(1, 0),
        init(2, 0),
        init(3, 0),
        init(4, 0),
        store(REL, 1, 1, X, 1),
        store(REL, 2, 2, X, 2),
        load(ACQ, 3, 3, 5, X, 1),
        load(ACQ, 3, 7, 6, X, 2),
        load(ACQ, 4, 4, 6, X, 2),
        load(ACQ, 4, 9, 5, X, 1),
    ]
}

fn e10() -> Vec<Bytes> {
    vec![
        init(0, 255),
        store(NA, 0, 0, Z, 0),
        init(1, 1),
        init(2, 1),
        init(3, 1),
        store(REL, 1, 2, Z, 1),
        load(ACQ, 2, 3, 1, Z, 0),
        load(ACQ, 2, 3, 5, Z, 1),
        store(REL, 2, 6, X, 1),
        store(REL, 2, 7, Y, 1),
        load(ACQ, 3, 4, 8, X, 1),
        load(ACQ, 3, 10, 9, Y, 1),
    ]
}

/// Document 02, W2: a lock that both cores took.
fn e11() -> Vec<Bytes> {
    vec![
        init(0, 255),
        store(REL, 0, 0, X, 0),
        init(1, 1),
        init(2, 1),
        update(AR, 1, 2, 1, X, 0, 1),
        update(AR, 2, 3, 1, X, 0, 1),
    ]
}

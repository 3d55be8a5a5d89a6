//! Growing well-formed tables at random, by profiles, and shuffling their records.

use crate::random::Random;
use crate::record::{init, put_read, put_written, store, Bytes};
use crate::table::{read_after_mark, read_records, NONE};

/// What kind of table is grown. Chances are in percent.
#[derive(Clone, Copy)]
pub struct Profile {
    pub locations: u8,
    pub threads: u8,
    pub new_thread: usize,
    pub branch: usize,
    pub follow_last: usize,
    /// Weights of not atomic, acquire or release, SC.
    pub orders: [usize; 3],
    /// Weights of load, store, update.
    pub kinds: [usize; 3],
    pub u: usize,
    pub no_source: usize,
    pub latest_source: usize,
}

const MIXED: Profile = Profile {
    locations: 3,
    threads: 6,
    new_thread: 15,
    branch: 15,
    follow_last: 20,
    orders: [1, 1, 1],
    kinds: [5, 4, 1],
    u: 8,
    no_source: 8,
    latest_source: 50,
};

/// Many reads of u beside racing writes.
pub const RACES: Profile =
    Profile { locations: 2, threads: 5, orders: [3, 1, 1], no_source: 60, u: 15, ..MIXED };

pub const PROFILES: [Profile; 17] = [
    MIXED,
    RACES,
    Profile { new_thread: 2, branch: 3, follow_last: 95, ..MIXED },
    Profile { new_thread: 1, branch: 0, follow_last: 100, locations: 20, ..MIXED },
    Profile { threads: 16, new_thread: 45, follow_last: 0, ..MIXED },
    Profile { locations: 1, ..MIXED },
    Profile { locations: 32, ..MIXED },
    Profile { orders: [0, 0, 1], ..MIXED },
    Profile { orders: [0, 0, 1], kinds: [1, 1, 4], locations: 2, u: 0, ..MIXED },
    Profile { orders: [0, 1, 0], branch: 25, u: 0, ..MIXED },
    Profile { orders: [1, 5, 0], locations: 2, latest_source: 85, ..MIXED },
    Profile { orders: [1, 0, 0], no_source: 30, branch: 30, ..MIXED },
    Profile { orders: [1, 0, 0], threads: 1, u: 0, latest_source: 100, branch: 0, ..MIXED },
    Profile { branch: 60, locations: 2, threads: 3, ..MIXED },
    Profile { orders: [0, 1, 1], latest_source: 100, no_source: 0, u: 0, branch: 2, ..MIXED },
    // Tokens taken twice, apart and on arms.
    Profile { orders: [0, 1, 0], kinds: [1, 1, 4], locations: 4, branch: 25, u: 4, ..MIXED },
    // Locks that hold.
    Profile {
        orders: [0, 1, 0],
        kinds: [1, 0, 6],
        locations: 2,
        latest_source: 100,
        no_source: 0,
        u: 0,
        ..MIXED
    },
];

/// Adds records to a well-formed table until it has so many.
pub fn grow(random: &mut Random, profile: &Profile, mut table: Vec<Bytes>, size: usize) -> Vec<Bytes> {
    if table.is_empty() {
        table.push(init(0, NONE));
    }
    let mut earlier = read_records(&table.concat()).expect("a table to grow is well-formed");
    while table.len() < size {
        let last = table.len() - 1;
        let mut next = store(0, table[last][4], last as u8, 0, 1);
        for _ in 0..40 {
            let proposed = propose(random, profile, &table);
            if read_after_mark(&proposed, &earlier).is_ok() {
                next = proposed;
                break;
            }
        }
        earlier.push(read_after_mark(&next, &earlier).expect("the table grows well-formed"));
        table.push(next);
    }
    table
}

/// A new record that may or may not fit the table.
pub fn propose(random: &mut Random, profile: &Profile, table: &[Bytes]) -> Bytes {
    // A read of a damaged table may have a parent that isn't there.
    let is_arm = |r: &&Bytes| (r[2] == 1 || r[2] == 3) && (r[5] as usize) < table.len();
    let reads: Vec<Bytes> = table.iter().filter(is_arm).copied().collect();
    if random.percent(profile.new_thread) {
        let thread = random.below(profile.threads as usize) as u8;
        return init(thread, random.below(table.len()) as u8);
    }
    let location = random.below(profile.locations as usize) as u8;
    if random.percent(profile.branch) && !reads.is_empty() {
        let beside = random.pick(&reads);
        let kind = if random.percent(20) { 3 } else { 1 };
        return propose_access(random, profile, table, kind, beside[5], beside[7]);
    }
    let last = table.len() - 1;
    let parent = if random.percent(profile.follow_last) { last } else { random.below(table.len()) };
    let kind = 1 + random.weighted(&profile.kinds) as u8;
    propose_access(random, profile, table, kind, parent as u8, location)
}

fn propose_access(
    random: &mut Random,
    profile: &Profile,
    table: &[Bytes],
    kind: u8,
    parent: u8,
    location: u8,
) -> Bytes {
    let thread = table[parent as usize][4];
    let mut record = store(0, thread, parent, location, 0);
    record[2] = kind;
    record[3] = match random.weighted(&profile.orders) {
        _ if kind == 3 => random.pick(&[3, 4]),
        0 => 0,
        1 => kind,
        _ => 4,
    };
    if kind != 2 {
        propose_source(random, profile, table, &mut record);
    }
    if kind != 1 {
        let value = random.pick(&[0, 1, 2, 3, 4, 5, 6, 7, 255, 256, 65535]);
        put_written(&mut record, (!random.percent(profile.u)).then_some(value));
    }
    record
}

/// A source of the record's location and the value that fits it, or no source and u.
fn propose_source(random: &mut Random, profile: &Profile, table: &[Bytes], record: &mut Bytes) {
    let is_source = |n: &usize| table[*n][2] >= 2 && table[*n][7] == record[7];
    let sources: Vec<usize> = (0..table.len()).filter(is_source).collect();
    if sources.is_empty() || random.percent(profile.no_source) {
        return put_read(record, None);
    }
    let latest = sources[sources.len() - 1];
    let random_one = random.pick(&sources);
    let source = if random.percent(profile.latest_source) { latest } else { random_one };
    record[6] = source as u8;
    let written = &table[source];
    let reads_u = written[8] & 2 != 0 || random.percent(profile.u / 2);
    let number = u16::from_le_bytes([written[12], written[13]]);
    put_read(record, (!reads_u).then_some(number));
}

/// The same records in another order in which parents and sources still stand earlier.
pub fn shuffle(random: &mut Random, table: &[Bytes]) -> Vec<Bytes> {
    let mut new_number = vec![NONE; table.len()];
    let mut shuffled: Vec<Bytes> = Vec::new();
    let is_placed = |numbers: &[u8], link: u8| link == NONE || numbers[link as usize] != NONE;
    while shuffled.len() < table.len() {
        let ready: Vec<usize> = (0..table.len())
            .filter(|&n| new_number[n] == NONE)
            .filter(|&n| is_placed(&new_number, table[n][5]) && is_placed(&new_number, table[n][6]))
            .collect();
        let old = random.pick(&ready);
        let mut record = table[old];
        for link in [5, 6] {
            if record[link] != NONE {
                record[link] = new_number[record[link] as usize];
            }
        }
        new_number[old] = shuffled.len() as u8;
        shuffled.push(record);
    }
    shuffled
}

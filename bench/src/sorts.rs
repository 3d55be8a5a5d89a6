//! The tables that are measured: of every sort, with any number of records from 12 to 200, the same again for the same seed.

use crate::tuned::Tuned;
use second::builder::Builder;
use second::gadgets::{arm_ring, far_read, far_standing, sc_ring, store_ring, update_ring};
use second::grow::{grow, propose, shuffle, Profile, PROFILES};
use second::large_gadgets::wide;
use second::random::Random;
use second::record::{init, store, Bytes};
use second::table::{read_after_mark, read_records, NONE};

#[derive(Clone, Copy, Debug, PartialEq, Eq)]
pub enum Sort {
    /// Grown at random, each record such that the table stays consistent.
    Consistent,
    /// Grown at random in any way, and relisted.
    Mixed,
    /// With a cycle for A1 or A4, of any length.
    Cycles,
    /// Arms below arms, everywhere.
    Branches,
    /// All sixteen threads, started all over the table.
    Threads,
    /// Few threads that are long, most of them without a branch.
    Deep,
    /// SC records only.
    Sc,
    /// One thread, each record the parent of the next.
    Chain,
    /// One branch, with as many arms as there is room for.
    Wide,
}

pub const SORTS: [Sort; 9] = [
    Sort::Consistent,
    Sort::Mixed,
    Sort::Cycles,
    Sort::Branches,
    Sort::Threads,
    Sort::Deep,
    Sort::Sc,
    Sort::Chain,
    Sort::Wide,
];

const NA: u8 = 0;
const ACQ: u8 = 1;
const REL: u8 = 2;
const AR: u8 = 3;
const SC: u8 = 4;

const MIXED: Profile = PROFILES[0];
const BRANCHES: Profile = Profile { branch: 60, locations: 2, threads: 3, ..MIXED };
const THREADS: Profile = Profile { threads: 16, new_thread: 45, follow_last: 0, ..MIXED };
const LONG_THREADS: Profile = Profile { new_thread: 2, branch: 3, follow_last: 95, ..MIXED };
const LONGER_THREADS: Profile =
    Profile { new_thread: 1, branch: 0, follow_last: 100, locations: 20, ..MIXED };
const SC_ONLY: Profile = Profile { orders: [0, 0, 1], ..MIXED };
const SC_UPDATES: Profile = Profile { kinds: [1, 1, 4], locations: 2, u: 0, ..SC_ONLY };
/// Around a cycle: nothing that hides it, and locations enough not to join it.
const AROUND: Profile =
    Profile { locations: 32, orders: [0, 1, 1], latest_source: 100, no_source: 0, u: 0, branch: 2, ..MIXED };

impl Sort {
    pub fn name(self) -> &'static str {
        match self {
            Sort::Consistent => "consistent",
            Sort::Mixed => "mixed",
            Sort::Cycles => "cycles",
            Sort::Branches => "branches",
            Sort::Threads => "threads",
            Sort::Deep => "deep",
            Sort::Sc => "sc",
            Sort::Chain => "chain",
            Sort::Wide => "wide",
        }
    }

    /// So many tables of so many records. Each sort and size has chances of its own.
    pub fn tables(self, seed: u64, records: usize, count: usize) -> Vec<Vec<u8>> {
        let mut random = Random::new(seed << 32 | (self as u64) << 16 | records as u64);
        (0..count).map(|_| self.table(&mut random, records).concat()).collect()
    }

    fn table(self, random: &mut Random, size: usize) -> Vec<Bytes> {
        match self {
            Sort::Consistent => consistent(random, size),
            Sort::Mixed => mixed(random, size),
            Sort::Cycles => cyclic(random, size),
            Sort::Branches => grown(random, BRANCHES, size),
            Sort::Threads => grown(random, THREADS, size),
            Sort::Deep => deep(random, size),
            Sort::Sc => {
                let profile = random.pick(&[SC_ONLY, SC_UPDATES]);
                grown(random, profile, size)
            }
            Sort::Chain => chain(random, size),
            Sort::Wide => one_branch(random, size),
        }
    }
}

fn grown(random: &mut Random, profile: Profile, size: usize) -> Vec<Bytes> {
    grow(random, &profile, Vec::new(), size)
}

fn mixed(random: &mut Random, size: usize) -> Vec<Bytes> {
    let profile = random.pick(&PROFILES);
    let table = grown(random, profile, size);
    shuffle(random, &table)
}

fn deep(random: &mut Random, size: usize) -> Vec<Bytes> {
    match random.below(4) {
        0 => far_read(size),
        1 => far_standing(size - 6),
        2 => grown(random, LONG_THREADS, size),
        _ => grown(random, LONGER_THREADS, size),
    }
}

fn consistent(random: &mut Random, size: usize) -> Vec<Bytes> {
    // The last location is left for stores that keep any table consistent.
    let spare = 31;
    let any = random.pick(&PROFILES);
    let profile = Profile { locations: any.locations.min(spare), ..any };
    let mut judge = Tuned::default();
    let mut table = vec![init(0, NONE)];
    let mut earlier = read_records(&table.concat()).expect("an Init is a table");
    while table.len() < size {
        let last = table.len() - 1;
        let mut next = store(REL, table[last][4], last as u8, spare, 1);
        for _ in 0..60 {
            let proposed = propose(random, &profile, &table);
            let fits = read_after_mark(&proposed, &earlier).is_ok();
            let grown = || [table.concat(), proposed.to_vec()].concat();
            if fits && judge.text(&grown()).ends_with("verdict consistent\n") {
                next = proposed;
                break;
            }
        }
        earlier.push(read_after_mark(&next, &earlier).expect("the table grows well-formed"));
        table.push(next);
    }
    table
}

fn cyclic(random: &mut Random, size: usize) -> Vec<Bytes> {
    let mut judge = Tuned::default();
    loop {
        let table = around_a_ring(random, size);
        let text = judge.text(&table.concat());
        if !text.contains("A1 none") || !text.contains("A4 none") {
            return table;
        }
    }
}

/// Records grown around a ring that is a cycle.
fn around_a_ring(random: &mut Random, size: usize) -> Vec<Bytes> {
    let ring = loop {
        let mut b = Builder::default();
        let threads = 2 + random.below(13.min(size / 4 - 2));
        match random.below(5) {
            0 => arm_ring(&mut b, 0, (size - 4) / 2),
            1 => store_ring(&mut b, 0, threads, REL, ACQ),
            2 => store_ring(&mut b, 0, threads, SC, SC),
            3 => update_ring(&mut b, 0, threads),
            _ => sc_ring(&mut b, 0, threads, false),
        }
        if b.table.len() <= size {
            break b.table;
        }
    };
    let grown = grow(random, &AROUND, ring, size);
    shuffle(random, &grown)
}

fn chain(random: &mut Random, size: usize) -> Vec<Bytes> {
    let any = random.pick(&PROFILES);
    let latest_source = random.pick(&[any.latest_source, 100]);
    let profile = Profile { threads: 1, new_thread: 0, branch: 0, follow_last: 100, latest_source, ..any };
    grown(random, profile, size)
}

/// Arms that read what another thread stored, or what the arm before wrote.
fn one_branch(random: &mut Random, size: usize) -> Vec<Bytes> {
    if random.percent(50) {
        return handed_on(random, size);
    }
    let most_starters = 14.min(size / 4);
    wide(size, 2 + random.below(most_starters - 1))
}

/// Arms that each read what the arm before wrote: by an update, or by a load and a store below it.
fn handed_on(random: &mut Random, size: usize) -> Vec<Bytes> {
    let mut b = Builder::default();
    let place = b.location();
    let mut value = 0;
    let mut written = b.update_u(AR, 0, place, value);
    while b.table.len() < size {
        value += 1;
        if random.percent(50) {
            written = b.update(random.pick(&[AR, SC]), 0, written, value);
            continue;
        }
        let read = b.load(random.pick(&[NA, ACQ, SC]), 0, written);
        if b.table.len() < size {
            written = b.store(random.pick(&[NA, REL, SC]), read, place, value);
        }
    }
    b.table
}

#[cfg(test)]
mod tests {
    use super::{Sort, SORTS};
    use second::relations::Relations;
    use second::table::read_table;
    use second::text::judge;

    const SIZES: [usize; 8] = [12, 13, 14, 15, 33, 64, 65, 200];

    fn tables(sort: Sort) -> impl Iterator<Item = (usize, Vec<u8>)> {
        SIZES.into_iter().flat_map(move |size| sort.tables(1, size, 3).into_iter().map(move |t| (size, t)))
    }

    #[test]
    fn every_table_is_sound_and_as_large_as_asked() {
        for (sort, (size, table)) in SORTS.into_iter().flat_map(|sort| tables(sort).map(move |t| (sort, t))) {
            let records = read_table(&table).map(|records| records.len());
            assert_eq!(records, Ok(size), "{}", sort.name());
        }
    }

    #[test]
    fn the_same_seed_gives_the_same_tables_and_another_gives_others() {
        for sort in SORTS {
            assert_eq!(sort.tables(1, 40, 4), sort.tables(1, 40, 4));
            assert_ne!(sort.tables(1, 40, 4), sort.tables(2, 40, 4));
        }
    }

    #[test]
    fn each_sort_is_what_it_is_called() {
        let text = |table: &[u8]| judge(table, usize::MAX);
        for (_, table) in tables(Sort::Consistent) {
            assert!(text(&table).ends_with("verdict consistent\n"));
        }
        for (_, table) in tables(Sort::Cycles) {
            assert!(!text(&table).contains("A1 none") || !text(&table).contains("A4 none"));
        }
        for (_, table) in tables(Sort::Sc) {
            assert!(table.chunks(16).all(|record| record[2] == 0 || record[3] >= 3));
        }
        for (size, table) in tables(Sort::Chain) {
            assert!((1..size).all(|n| table[16 * n + 5] as usize == n - 1));
        }
    }

    #[test]
    fn on_a_wide_table_half_of_the_records_or_more_have_arms_beside_them() {
        for (size, table) in tables(Sort::Wide) {
            let records = read_table(&table).expect("a sound table");
            let cf = Relations::of(&records, usize::MAX).cf;
            assert!(2 * cf.iter().filter(|row| row.contains(&true)).count() >= size);
        }
    }
}

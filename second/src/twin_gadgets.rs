//! Patterns of as many records as the twin takes, in which a walk back by last steps has many ways to go.

use crate::builder::Builder;
use crate::gadgets::{far_read, far_standing, home_sc_ring};
use crate::large_gadgets::{
    fixed, free, long_arm_ring, long_relay, nested_threads, sc_arm_ring, stores_in_a_row, thread_tree, wide,
    Pattern,
};
use crate::record::Bytes;
use crate::twin::MOST_TWIN_RECORDS as FULL;
use crate::update_gadgets::{far_apart, far_conflict, readers, take_in_turn};

const NA: u8 = 0;
const ACQ: u8 = 1;
const REL: u8 = 2;
const AR: u8 = 3;
const SC: u8 = 4;

/// Updates, each with two ways back: to its parent, the thread's last update, and to its source.
#[derive(Clone, Copy, Debug)]
pub struct Ladder {
    /// How many threads take in turn: the parent is so many updates back.
    pub threads: usize,
    /// How many updates back the source is.
    pub source_back: usize,
    /// Whether there are as many locations, so that each update takes the last write of its own; else there is one.
    pub is_apart: bool,
    pub order: u8,
    pub beside: Beside,
}

/// What stands beside a ladder, at smaller record numbers, and happens before nothing in it: every way back is gone to
/// its end before that is known.
#[derive(Clone, Copy, Debug)]
pub struct Beside {
    /// How many threads, each with a write of the ladder's first location.
    pub threads: usize,
    pub order: u8,
    /// Whether each has a write of another location too.
    pub writes_other: bool,
    /// Whether an SC write of a third location stands above the ladder, and one of the threads' other location below it.
    pub has_ends: bool,
}

/// The table of such a ladder, with so many updates that it has this size.
pub fn ladder_table(size: usize, ladder: &Ladder) -> Vec<Bytes> {
    let mut b = Builder::default();
    let (x, other, third) = (b.location(), b.location(), b.location());
    let Beside { threads, order, writes_other, has_ends } = ladder.beside;
    for thread in 0..threads as u16 {
        let init = b.thread(0);
        let write = b.store(order, init, x, 100 + thread);
        if writes_other {
            b.store(order, write, other, 200 + thread);
        }
    }
    let above = if has_ends { b.store(SC, 0, third, 1) } else { 0 };
    let tokens = ladder.tokens(&mut b, above, x);
    let last = tokens[tokens.len() - 1];
    // The thread of the tokens is one of those that take.
    let mut ends = vec![last];
    ends.extend((1..ladder.threads).map(|_| b.thread(last)));
    let takes = size - b.table.len() - usize::from(has_ends);
    let updates = take_in_turn(&mut b, &tokens, ends, takes, ladder.order);
    if has_ends {
        b.store(SC, updates[takes - 1], other, 300);
    }
    b.table
}

/// What stands beside the ladders below.
const BESIDE: [Beside; 8] = [
    Beside { threads: 0, order: NA, writes_other: false, has_ends: false },
    Beside { threads: 0, order: NA, writes_other: false, has_ends: true },
    Beside { threads: 1, order: NA, writes_other: true, has_ends: false },
    Beside { threads: 1, order: NA, writes_other: true, has_ends: true },
    Beside { threads: 1, order: SC, writes_other: false, has_ends: false },
    Beside { threads: 2, order: REL, writes_other: true, has_ends: false },
    Beside { threads: 1, order: SC, writes_other: true, has_ends: true },
    Beside { threads: 2, order: SC, writes_other: true, has_ends: true },
];

/// Ladders of one to three threads, their sources one to three updates back; those of several locations are all SC.
pub fn ladders() -> Vec<Ladder> {
    let mut list = Vec::new();
    for (threads, source_back) in (1..=3).flat_map(|threads| (1..=3).map(move |back| (threads, back))) {
        for (order, is_apart) in [(SC, false), (AR, false), (SC, true)] {
            // One location is not apart from itself.
            if !is_apart || source_back > 1 {
                list.extend(BESIDE.map(|beside| Ladder { threads, source_back, is_apart, order, beside }));
            }
        }
    }
    list
}

impl Ladder {
    /// What the first updates take: stores in a row, the first of location x.
    fn tokens(&self, b: &mut Builder, above: u8, x: u8) -> Vec<u8> {
        if !self.is_apart {
            return stores_in_a_row(b, above, x, self.source_back);
        }
        let mut tokens = stores_in_a_row(b, above, x, 1);
        while tokens.len() < self.source_back {
            let location = b.location();
            tokens.extend(stores_in_a_row(b, tokens[tokens.len() - 1], location, 1));
        }
        tokens
    }

    /// NA writes beside it race with its own. Whoever takes another than the last write of a location closes cycles, as
    /// all that was written is before it.
    fn findings(&self) -> &'static [&'static str] {
        let races = self.beside.threads > 0 && self.beside.order == NA;
        let locks_hold = self.source_back == 1 || self.is_apart;
        match (races, locks_hold, self.order) {
            (false, true, _) => &[],
            (true, true, _) => &["R", "W"],
            (false, _, SC) => &["A1", "A4"],
            (true, _, SC) => &["R", "A1", "A4", "W"],
            (false, _, _) => &["A1"],
            (true, _, _) => &["R", "A1", "W"],
        }
    }

    fn pattern(&self) -> Pattern {
        let Beside { threads, order, writes_other, has_ends } = self.beside;
        let said = |holds: bool, words: &'static str| if holds { words } else { "" };
        let name = format!(
            "ladder of {} threads, order {}, sources {} back{}, beside {threads} threads of order {order}{}{}",
            self.threads,
            self.order,
            self.source_back,
            said(self.is_apart, " and locations apart"),
            said(writes_other, " with two writes"),
            said(has_ends, ", with ends")
        );
        // R goes by which writes are earlier, and a ladder alone may have one order only.
        let can_be_relisted = threads > 0 && order != NA;
        Pattern { can_be_relisted, ..fixed(&name, self.findings(), ladder_table(FULL, self)) }
    }
}

/// Consistent: a thread whose one read sees any of so many stores in a row that the table has this size.
fn widest_branch(size: usize, order: u8) -> Vec<Bytes> {
    let mut b = Builder::default();
    let flag = b.location();
    let reader = b.thread(0);
    let arms = (size - b.table.len()) / 2;
    for told in stores_in_a_row(&mut b, 0, flag, arms) {
        b.load(order, reader, told);
    }
    b.table
}

/// Every pattern of as many records as the twin takes.
pub fn twin_patterns() -> Vec<Pattern> {
    let (arm_ring, sc_arm_ring) = (long_arm_ring(FULL), sc_arm_ring(FULL));
    let with_cycle = |finding, length, pattern| Pattern { cycle: Some((finding, length)), ..pattern };
    let built = |build: &dyn Fn(&mut Builder)| {
        let mut b = Builder::default();
        build(&mut b);
        b.table
    };
    let mut list: Vec<Pattern> = ladders().iter().map(Ladder::pattern).collect();
    list.extend(
        [2, 6, 15].map(|threads| {
            free(&format!("relay through {threads} threads"), &["R"], long_relay(FULL, threads))
        }),
    );
    list.extend([
        fixed("chain", &["R"], far_read(FULL)),
        with_cycle("A1", arm_ring.1, fixed("ring of arms", &["R", "A1", "A3"], arm_ring.0)),
        with_cycle("A4", sc_arm_ring.1, free("ring of SC arms", &["A4"], sc_arm_ring.0)),
        with_cycle("A4", 12, free("ring of SC threads", &["A4"], built(&|b| home_sc_ring(b, 0, 6)))),
        free("wide branch with threads on its arms", &["W"], wide(FULL, 5)),
        free("widest branch, ACQ", &[], widest_branch(FULL, ACQ)),
        free("widest branch, SC", &[], widest_branch(FULL, SC)),
        free("tree of threads", &["W"], thread_tree(FULL, 6)),
        free("threads below each other", &["W"], nested_threads(FULL, 7)),
        free("updates far apart", &["A5"], far_apart(FULL)),
        free("updates far apart in conflict", &[], far_conflict(FULL)),
        free("updates of one store", &["A5"], built(&|b| _ = readers(b, 0, &[AR; 11]))),
        free("SC updates of one store", &["A4", "A5"], built(&|b| _ = readers(b, 0, &[SC; 11]))),
        fixed("read that stands on a race", &[], far_standing(FULL - 6)),
    ]);
    list
}

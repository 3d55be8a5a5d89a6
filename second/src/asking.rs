//! Making the questions beside judging: cuts, appends and fetches of a table.

use crate::findings::racing_writes_stood_on;
use crate::grow::{propose, PROFILES};
use crate::questions::{Question, MOST_PART};
use crate::random::Random;
use crate::record::{init, put_read, put_written, Bytes};
use crate::relations::Relations;
use crate::selection::{naming, SELECTION_BYTES};
use crate::table::{read_table, MOST_RECORDS, NONE, RECORD_BYTES};
use std::collections::BTreeSet;

/// How many bytes a table takes at most.
const MOST_BYTES: usize = RECORD_BYTES * MOST_RECORDS;

/// A cut of the table, mostly of a selection that lacks nothing.
pub fn ask_cut(random: &mut Random, table: &[Bytes]) -> Question {
    let bytes = table.concat();
    let wish = some_of(random, table.len(), 12);
    let with_races = random.percent(75);
    let mut kept = closed_selection(&bytes, &wish, with_races);
    match random.below(20) {
        0 => kept.clear(),
        1 => _ = kept.insert(random.below(MOST_RECORDS)),
        2 => kept = some_of(random, table.len(), 50),
        3 => _ = kept.insert(table.len().min(MOST_RECORDS - 1)),
        4 => kept = (0..table.len()).collect(),
        5..=7 => _ = kept.remove(&random.below(table.len())),
        _ => {}
    }
    let exact = RECORD_BYTES * kept.len();
    let longer = exact + random.below(40);
    let sizes = [exact, exact, longer, longer, MOST_BYTES, exact.saturating_sub(1), random.below(MOST_BYTES)];
    let mut selection = naming(&kept);
    if random.percent(4) {
        selection.resize(random.below(2 * SELECTION_BYTES), 0);
    }
    Question::Cut { selection, output_size: random.pick(&sizes) as u16, table: bytes }
}

/// Record 0 and each other with this chance, in percent.
pub fn some_of(random: &mut Random, count: usize, chance: usize) -> BTreeSet<usize> {
    (0..count).filter(|&n| n == 0 || random.percent(chance)).collect()
}

/// The records wished for with all their parents and sources, and the racing writes they stand on.
pub fn closed_selection(bytes: &[u8], wish: &BTreeSet<usize>, with_races: bool) -> BTreeSet<usize> {
    let mut kept = wish.clone();
    let Ok(records) = read_table(bytes) else { return kept };
    let relations = Relations::of(&records, usize::MAX);
    // What a record needs stands earlier.
    for n in (0..records.len()).rev() {
        if !kept.contains(&n) {
            continue;
        }
        kept.extend([records[n].parent, records[n].source].into_iter().flatten());
        if with_races {
            kept.extend(racing_writes_stood_on(&records, &relations, n).first());
        }
    }
    kept
}

/// An append to the table or to the records before some place, with a buffer of some length.
pub fn ask_append(random: &mut Random, table: &[Bytes]) -> Question {
    let whole = random.percent(70);
    let in_use = if whole { table.len() } else { random.below(table.len() + 1) };
    let used = &table[..in_use];
    let mut event = if used.is_empty() {
        init(0, NONE)
    } else {
        let profile = random.pick(&PROFILES);
        propose(random, &profile, used)
    };
    if random.percent(50) {
        unsettle(random, &mut event, in_use);
    }
    let mut buffer = used.concat();
    let rooms = [0, 1, 15, 16, 16, 16, 17, 32, 100, MOST_BYTES - buffer.len(), 1100];
    let room = random.pick(&rooms).min(MOST_PART - buffer.len());
    for _ in 0..room {
        buffer.push(random.byte());
    }
    let claimed = match random.below(20) {
        0 => in_use + 1 + room / RECORD_BYTES,
        1 => MOST_RECORDS + 1,
        2 => random.pick(&[65, 202, 255, 256, 257, 4096, 65535]),
        _ => in_use,
    };
    Question::Append { in_use: claimed as u16, event, buffer }
}

/// Changes a new event within what an event can hold: any link, thread, location, value or order,
/// and a source even where its kind has none; no other field leaves its rest, and an Init has no order to choose.
pub fn unsettle(random: &mut Random, event: &mut Bytes, in_use: usize) {
    let link = random.pick(&[0, in_use as u8, random_near(in_use), NONE, 64, MOST_RECORDS as u8, 254]);
    match random.below(8) {
        0 if event[2] != 0 => event[3] = random.below(5) as u8,
        1 => event[4] = random.pick(&[0, 1, 2, 15, 16, 17, 255]),
        2 => event[5] = link,
        3 | 4 => event[6] = link,
        5 if event[2] != 0 => event[7] = random.pick(&[0, 1, 2, 31, 32, 255]),
        6 if event[2] == 1 || event[2] == 3 => {
            let value = random.pick(&[None, Some(0), Some(1), Some(65535)]);
            put_read(event, value);
        }
        7 if event[2] >= 2 => {
            let value = random.pick(&[None, Some(0), Some(1), Some(65535)]);
            put_written(event, value);
        }
        _ => event[5] = link,
    }
}

fn random_near(in_use: usize) -> u8 {
    (in_use / 2) as u8
}

/// A fetch of a record, or of a number past the table.
pub fn ask_fetch(random: &mut Random, bytes: Vec<u8>) -> Question {
    let count = bytes.len() / RECORD_BYTES;
    let inside = random.below(count.max(1));
    let numbers = [0, inside, inside, count.saturating_sub(1), count, count + 1, MOST_RECORDS, 255];
    let asked = random.pick(&numbers);
    let far = random.pick(&[256, 4096, 65535]);
    Question::Fetch { asked: if random.percent(8) { far } else { asked } as u16, table: bytes }
}

//! The generator: questions from a seed, E1 to E11 first.

use crate::ask_batches::ask_batches;
use crate::ask_bytes::ask_bytes;
use crate::ask_figures::ask_figures;
use crate::ask_full::ask_full;
use crate::ask_large::{ask_large, ask_lengths};
use crate::ask_large_cuts::ask_large_cuts;
use crate::ask_selections::ask_selections;
use crate::asking::{ask_append, ask_cut, ask_fetch, closed_selection, some_of, unsettle};
use crate::builder::Builder;
use crate::damage::{damage, damage_once, scatter};
use crate::examples::{example, examples};
use crate::findings::FINDINGS;
use crate::gadgets::{
    add_finding, far_standing, finding_sets, several_racing, sized_tables, standing_on_races,
};
use crate::grow::{grow, propose, shuffle, PROFILES, RACES};
use crate::large_gadgets::LEAST_LARGE;
use crate::questions::Question;
use crate::random::Random;
use crate::record::{init, store, Bytes};
use crate::selection::{naming, naming_first};
use crate::table::{MOST_RECORDS, NONE};
use std::collections::BTreeSet;

/// At least `count` tables to judge, and cuts, appends and fetches beside them; then batches and their figures;
/// then damaged records; then large tables and selections.
pub fn generate(seed: u64, count: usize) -> Vec<Question> {
    let mut random = Random::new(seed);
    let mut list: Vec<Question> = examples().into_iter().map(|e| judged(e.bytes)).collect();
    list.extend(edges());
    list.extend(ask_lengths());
    list.extend(gadget_tables(&mut random));
    list.extend(each_refusal(&mut random));
    list.extend(fixed_edits(&mut random));
    let mut judges = list.iter().filter(|q| q.operation() == "judge").count();
    while judges < count {
        let table = any_size_table(&mut random);
        match judges % 8 {
            0 | 4 => list.push(ask_cut(&mut random, &table)),
            1 | 5 => list.push(ask_append(&mut random, &table)),
            2 => list.push(ask_fetch(&mut random, table.concat())),
            _ => {}
        }
        list.push(judged(table.concat()));
        judges += 1;
    }
    list.extend(ask_batches(seed));
    list.extend(ask_figures(seed));
    list.extend(ask_bytes(seed));
    list.extend(ask_large(seed));
    list.extend(ask_full(seed));
    list.extend(ask_selections());
    list.extend(ask_large_cuts(seed));
    list
}

fn judged(table: Vec<u8>) -> Question {
    Question::Judge { table }
}

/// Threads and locations around the bounds of refusal 5.
fn edges() -> Vec<Question> {
    let mut list = Vec::new();
    for thread in [0, 1, 14, 15, 16, 17, 31, 32, 127, 128, 255] {
        list.push(judged([init(0, NONE), init(thread, 0)].concat()));
    }
    for location in [0, 1, 15, 16, 30, 31, 32, 33, 127, 128, 255] {
        list.push(judged([init(0, NONE), store(0, 0, 0, location, 7)].concat()));
    }
    list
}

/// Each set of findings, each cycle length, each chain length and the updates, as built and shuffled.
fn gadget_tables(random: &mut Random) -> Vec<Question> {
    let mut list = Vec::new();
    for table in finding_sets().into_iter().chain(sized_tables()) {
        list.push(judged(table.concat()));
        list.push(judged(shuffle(random, &table).concat()));
    }
    list.extend((1..LEAST_LARGE).map(|size| judged(grown_to(random, size).concat())));
    list
}

/// Every refusal number of a record, at the first, a middle and the last record, to be judged, cut
/// and appended to. (7 and 8 can't stand at record 0: it would be refused as 6, or is a good Init.)
fn each_refusal(random: &mut Random) -> Vec<Question> {
    let mut list = Vec::new();
    for number in 2..=8 {
        for class in 0..3 {
            let mut found = 0;
            for _ in 0..60 {
                let table = grown(random, 3);
                let last = table.len() - 1;
                let place = [0, 1 + random.below(last - 1), last][class];
                let Some(damaged) = damage(random, &table, number, place) else { continue };
                let bytes = damaged.concat();
                let event = init(15, 0);
                list.push(judged(bytes.clone()));
                let selection = naming_first(1);
                list.push(Question::Cut { selection, output_size: 16, table: bytes.clone() });
                list.push(Question::Append { in_use: last as u16 + 1, event, buffer: bytes });
                found += 1;
                if found == 6 {
                    break;
                }
            }
        }
    }
    list
}

/// Document 01's cuts; cuts for 10 by each lack; appends for 3 to 8 at the new record.
fn fixed_edits(random: &mut Random) -> Vec<Question> {
    let cut = |name: &str, kept: &[usize]| {
        let selection = naming(&kept.iter().copied().collect());
        Question::Cut { selection, output_size: 200, table: example(name) }
    };
    let mut list = vec![cut("E2", &[0, 1, 3]), cut("E8", &[0, 1, 2, 3, 4, 6, 8]), cut("E2", &[])];
    list.extend([cut("E2", &[5]), cut("E2", &[0, 1, 2, 4]), cut("E2", &[0, 1, 2, 3, 4])]);
    list.extend(standing_cuts());
    list.extend(race_cuts(random));
    for _ in 0..200 {
        let used = grown(random, 1);
        let profile = random.pick(&PROFILES);
        let mut event = propose(random, &profile, &used);
        unsettle(random, &mut event, used.len());
        let mut buffer = used.concat();
        buffer.extend([0xee; 20]);
        list.push(Question::Append { in_use: used.len() as u16, event, buffer });
    }
    list
}

/// Cuts of tables with reads that stand on a race: each record with what it needs, with and without
/// racing writes, to outputs of the exact size, a byte too short, and none.
fn standing_cuts() -> Vec<Question> {
    let mut races = Builder::default();
    standing_on_races(&mut races, 0);
    let mut several = Builder::default();
    several_racing(&mut several, 0);
    let far = [0, 9, 20, 59].map(far_standing);
    let mut list = Vec::new();
    for table in [races.table, several.table].into_iter().chain(far) {
        for n in (0..table.len()).filter(|n| n + 12 > table.len()) {
            for with_races in [true, false] {
                let kept = closed_selection(&table.concat(), &BTreeSet::from([n]), with_races);
                let exact = 16 * kept.len() as u16;
                for output_size in [exact, exact - 1, 0] {
                    list.push(Question::Cut { selection: naming(&kept), output_size, table: table.concat() });
                }
            }
        }
    }
    list
}

/// Cuts of grown tables with many races, not minding the racing writes.
fn race_cuts(random: &mut Random) -> Vec<Question> {
    let mut list = Vec::new();
    for _ in 0..100 {
        let size = 10 + random.below(40);
        let table = grow(random, &RACES, Vec::new(), size).concat();
        let wish = some_of(random, size, 25);
        let selection = naming(&closed_selection(&table, &wish, false));
        list.push(Question::Cut { selection, output_size: 1024, table });
    }
    list
}

pub fn grown_to(random: &mut Random, size: usize) -> Vec<Bytes> {
    let profile = random.pick(&PROFILES);
    grow(random, &profile, Vec::new(), size)
}

/// A grown table of so many records or more, small ones more often than large ones.
pub fn grown(random: &mut Random, least: usize) -> Vec<Bytes> {
    let bound = random.pick(&[8, 16, 32, LEAST_LARGE - 1]);
    let size = least + random.below(bound - least + 1);
    grown_to(random, size)
}

/// A table of any shape and now and then a large one, well-formed or damaged.
pub fn any_size_table(random: &mut Random) -> Vec<Bytes> {
    if !random.percent(3) {
        return any_table(random);
    }
    let size = LEAST_LARGE + random.below(MOST_RECORDS - LEAST_LARGE + 1);
    let mut table = grown_to(random, size);
    if random.percent(30) {
        table = shuffle(random, &table);
    }
    spoil_some(random, &mut table);
    table
}

/// A table of any shape that is not large, well-formed or damaged.
pub fn any_table(random: &mut Random) -> Vec<Bytes> {
    let mut table = match random.below(10) {
        0 | 1 => grown_on_findings(random, LEAST_LARGE - 1),
        2 => {
            let built = sized_tables();
            let chosen = random.below(built.len());
            shuffle(random, &built[chosen])
        }
        3 => {
            let table = grown(random, 1);
            shuffle(random, &table)
        }
        _ => grown(random, 1),
    };
    spoil_some(random, &mut table);
    table
}

/// Damages some of the tables that it is given.
fn spoil_some(random: &mut Random, table: &mut [Bytes]) {
    match random.below(20) {
        0 | 1 => spoil(random, table),
        2 => {
            spoil(random, table);
            spoil(random, table);
        }
        3 => scatter(random, table),
        _ => {}
    }
}

/// One to three findings' patterns, more records grown around them up to so many, all shuffled.
pub fn grown_on_findings(random: &mut Random, most: usize) -> Vec<Bytes> {
    let mut b = Builder::default();
    for _ in 0..1 + random.below(3) {
        add_finding(&mut b, random.below(FINDINGS.len()));
    }
    let size = (b.table.len() + random.below(20)).min(most);
    let profile = random.pick(&PROFILES);
    let table = grow(random, &profile, b.table, size);
    shuffle(random, &table)
}

fn spoil(random: &mut Random, table: &mut [Bytes]) {
    let number = 2 + random.below(7) as u8;
    let place = random.below(table.len());
    damage_once(random, table, number, place);
}

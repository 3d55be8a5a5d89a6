//! Making the questions about full and nearly full tables beside judging: appends and fetches.

use crate::ask_large::large_random;
use crate::asking::unsettle;
use crate::damage::damage;
use crate::generate::grown_to;
use crate::grow::{propose, PROFILES};
use crate::questions::Question;
use crate::random::Random;
use crate::record::{init, load_u, store, Bytes};
use crate::table::{read_after_mark, read_records, MOST_RECORDS, NONE, RECORD_BYTES};

/// Records in use and the buffer's length, around the limit in both, and the answer to a new record that is sound.
pub const ROOMS: [(usize, usize, &str); 15] = [
    (198, 3184, "count 199"),
    (199, 3183, "refused 1 at 0"),
    (199, 3184, "refused 11 at 0"),
    (199, 3199, "refused 11 at 0"),
    (199, 3200, "count 200"),
    (199, 3201, "count 200"),
    (199, 4096, "count 200"),
    (200, 3199, "refused 1 at 0"),
    (200, 3200, "refused 12 at 0"),
    (200, 3201, "refused 12 at 0"),
    (200, 3216, "refused 12 at 0"),
    (200, 4096, "refused 12 at 0"),
    (201, 3200, "refused 1 at 0"),
    (201, 3216, "refused 1 at 0"),
    (201, 4096, "refused 1 at 0"),
];

/// The bytes of a parent and of a source.
pub const LINK_BYTES: [usize; 2] = [5, 6];

/// A link's byte in a new record behind 199 stores in a row, the link, and the answer.
pub fn link_answers() -> Vec<(usize, u8, &'static str)> {
    let has_child = [64, 127, 128].map(|parent| (5, parent, "refused 8 at 199 byte 5"));
    let is_no_parent = [199, 200, 254, NONE].map(|parent| (5, parent, "refused 6 at 199 byte 5"));
    let is_source = [64, 127, 128, 198, NONE].map(|source| (6, source, "count 200"));
    let is_no_source = [199, 200, 254].map(|source| (6, source, "refused 7 at 199 byte 6"));
    let mut list = vec![(5, 198, "count 200")];
    list.extend(has_child.into_iter().chain(is_no_parent).chain(is_source).chain(is_no_source));
    list
}

/// Numbers to fetch.
pub const ASKED: [usize; 14] = [0, 63, 64, 65, 127, 128, 198, 199, 200, 201, 255, 256, 455, 65535];
/// How many records the tables have of which they are fetched.
pub const FETCHED_FROM: [usize; 5] = [65, 128, 199, 200, 201];

pub fn ask_full(seed: u64) -> Vec<Question> {
    let mut random = large_random(!seed);
    let mut list = Vec::new();
    list.extend(ROOMS.into_iter().map(|(in_use, length, _)| in_room(&mut random, in_use, length)));
    for in_use in [MOST_RECORDS - 1, MOST_RECORDS] {
        list.extend((2..=8).flat_map(|number| damaged_in_use(&mut random, in_use, number)));
    }
    list.extend((3..=8).map(|number| damaged_event(&mut random, number)));
    list.extend(linked_events());
    list.extend(fetches(&mut random));
    list
}

/// A full table and what stands behind it in a longer buffer: bytes of sound records again.
fn full_buffer(random: &mut Random) -> Vec<Bytes> {
    let full = grown_to(random, MOST_RECORDS);
    [&full[..], &full].concat()
}

/// An append of the record that stands next in a sound table, or of the last one where that is full.
fn in_room(random: &mut Random, in_use: usize, length: usize) -> Question {
    let table = full_buffer(random);
    let event = table[in_use.min(MOST_RECORDS - 1)];
    let mut buffer = table[..in_use.min(MOST_RECORDS)].concat();
    buffer.extend(table[..].concat());
    buffer.truncate(length);
    Question::Append { in_use: in_use as u16, event, buffer }
}

/// Appends to records of which one, the last and another, is refused with this number; to a buffer that has room for
/// a full table, and to one that has a byte less.
fn damaged_in_use(random: &mut Random, in_use: usize, number: u8) -> Vec<Question> {
    let mut list = Vec::new();
    for (place, length) in [(in_use - 1, 3200), (1 + random.below(in_use - 2), 16 * in_use + 15)] {
        let (table, event) = loop {
            let full = grown_to(random, MOST_RECORDS);
            if let Some(damaged) = damage(random, &full[..in_use], number, place) {
                break (damaged, full[MOST_RECORDS - 1]);
            }
        };
        let mut buffer = table.concat();
        buffer.resize(length, 0xee);
        list.push(Question::Append { in_use: in_use as u16, event, buffer });
    }
    list
}

/// A new event that is refused with this number at the last place that there is.
fn damaged_event(random: &mut Random, number: u8) -> Question {
    let used = grown_to(random, MOST_RECORDS - 1);
    let records = read_records(&used.concat()).expect("a grown table is well-formed");
    let event = loop {
        let profile = random.pick(&PROFILES);
        let mut event = propose(random, &profile, &used);
        unsettle(random, &mut event, used.len());
        if read_after_mark(&event, &records).is_err_and(|refusal| refusal.number == number) {
            break event;
        }
    };
    to_last_place(&used, event)
}

fn to_last_place(used: &[Bytes], event: Bytes) -> Question {
    let buffer = [used.concat(), vec![0xee; RECORD_BYTES]].concat();
    Question::Append { in_use: used.len() as u16, event, buffer }
}

/// New events at the last place with each of these links: a store below it, or a load that reads u from it.
fn linked_events() -> Vec<Question> {
    let mut used = vec![init(0, NONE)];
    while used.len() + 1 < MOST_RECORDS {
        used.push(store(0, 0, used.len() as u8 - 1, 0, 1));
    }
    let last = used.len() as u8 - 1;
    let event = |byte: usize, link: u8| match byte {
        5 => store(0, 0, link, 0, 1),
        _ => load_u(0, 0, last, link, 0),
    };
    link_answers().iter().map(|&(byte, link, _)| to_last_place(&used, event(byte, link))).collect()
}

/// Fetches of numbers at the edges, of sound tables and of bytes by chance.
fn fetches(random: &mut Random) -> Vec<Question> {
    let mut list = Vec::new();
    for count in FETCHED_FROM {
        let sound = full_buffer(random)[..count].concat();
        let any: Vec<u8> = (0..RECORD_BYTES * count).map(|_| random.byte()).collect();
        for (asked, table) in ASKED.into_iter().flat_map(|asked| [(asked, &sound), (asked, &any)]) {
            list.push(Question::Fetch { asked: asked as u16, table: table.clone() });
        }
    }
    list
}

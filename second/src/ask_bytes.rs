//! Making the questions about the byte that a refusal names: damaged records to judge, cut, append to, append, and in batches.

use crate::ask_batches::with_each_output;
use crate::damage_bytes::{one_byte_damaged, two_bytes_damaged, Table, PAIRS};
use crate::damage_events::damaged_events;
use crate::examples::example;
use crate::pack::{ending_bytes, pack, ENDINGS};
use crate::questions::Question;
use crate::random::Random;
use crate::record::init;
use crate::selection::naming_first;

/// How many damaged tables a batch of the questions holds, and a batch that is a file.
const IN_QUESTION: usize = 40;
const IN_FILE: usize = 250;

/// Chances of their own for damaged bytes, so that all else of a seed stays what it is.
fn bytes_random(seed: u64) -> Random {
    Random::new(seed ^ u64::from_be_bytes(*b"\0BYTE 16"))
}

pub fn ask_bytes(seed: u64) -> Vec<Question> {
    let mut random = bytes_random(seed);
    let one = one_byte_damaged(&mut random);
    let two = two_bytes_damaged(&mut random);
    let mut list = Vec::new();
    for table in &one {
        list.extend([ask_judge(table), ask_cut(table), ask_append(table)]);
    }
    for (number, table) in two.iter().enumerate() {
        list.push(ask_judge(table));
        // Another third of the pairs for each shape.
        match (number + number / PAIRS) % 3 {
            0 => list.push(ask_cut(table)),
            1 => list.push(ask_append(table)),
            _ => {}
        }
    }
    list.extend(one.iter().step_by(10).map(ask_append_before));
    list.extend(damaged_events(&mut random).iter().map(ask_new));
    list.extend(ask_in_batches(&mut random, one.iter().chain(&two).step_by(7)));
    list
}

fn ask_judge(table: &Table) -> Question {
    Question::Judge { table: table.bytes() }
}

/// A cut that keeps every record.
fn ask_cut(table: &Table) -> Question {
    let count = table.records.len();
    Question::Cut { selection: naming_first(count), output_size: 16 * count as u16, table: table.bytes() }
}

/// An append of a sound event, the damaged record being in use.
fn ask_append(table: &Table) -> Question {
    let buffer = [table.bytes(), vec![0xee; 16]].concat();
    Question::Append { in_use: table.records.len() as u16, event: init(13, 0), buffer }
}

/// The damaged record is the first that is not in use, and so no fault.
fn ask_append_before(table: &Table) -> Question {
    let event = if table.place == 0 { init(0, 255) } else { init(13, 0) };
    Question::Append { in_use: table.place as u16, event, buffer: table.bytes() }
}

/// The append of the damaged record itself, behind those before it.
fn ask_new(table: &Table) -> Question {
    let buffer = [table.records[..table.place].concat(), vec![0xee; 20]].concat();
    Question::Append { in_use: table.place as u16, event: table.records[table.place], buffer }
}

/// Batches of damaged tables, a sound one after each few, with any ending and each output.
fn ask_in_batches<'a>(random: &mut Random, tables: impl Iterator<Item = &'a Table>) -> Vec<Question> {
    let mut list = Vec::new();
    for batch in packed(tables, IN_QUESTION) {
        let ending = random.pick(&ENDINGS);
        let batch = [batch, ending_bytes(random, ending)].concat();
        list.extend(with_each_output(random, batch));
    }
    list
}

/// All damaged tables of a seed as whole batches.
pub fn damaged_batches(seed: u64) -> Vec<Vec<u8>> {
    let mut random = bytes_random(seed);
    let (one, two) = (one_byte_damaged(&mut random), two_bytes_damaged(&mut random));
    packed(one.iter().chain(&two), IN_FILE)
}

/// The tables in batches of so many, with E1 after each tenth.
fn packed<'a>(tables: impl Iterator<Item = &'a Table>, count: usize) -> Vec<Vec<u8>> {
    let all: Vec<Vec<u8>> = tables.map(Table::bytes).collect();
    let with_sound = |some: &[Vec<u8>]| [some, &[example("E1")]].concat();
    let batch = |some: &[Vec<u8>]| pack(&some.chunks(10).flat_map(with_sound).collect::<Vec<_>>());
    all.chunks(count).map(batch).collect()
}

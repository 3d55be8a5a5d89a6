//! Making the questions about figures: batches of every ending, and how much output is lent.

use crate::batch::MOST_BYTES;
use crate::examples::{example, examples};
use crate::figures::{figures_of, text_of};
use crate::gadgets::far_read;
use crate::generate::any_size_table;
use crate::pack::{ending_bytes, pack, refused_table, Ending, ENDINGS};
use crate::questions::Question;
use crate::random::Random;
use crate::table::MOST_RECORDS;

/// Chances of their own for what is made for figures, so that all else of a seed stays what it is.
pub fn figures_random(seed: u64) -> Random {
    Random::new(seed ^ u64::from_be_bytes(*b"\0\0MONDAY"))
}

pub fn ask_figures(seed: u64) -> Vec<Question> {
    let mut random = figures_random(seed);
    let mut list = Vec::new();
    for batch in small_batches(&mut random).into_iter().chain(large_inside()) {
        list.extend(with_each_output(&mut random, batch));
    }
    list.extend(long_numbers());
    list.extend(around_the_limit());
    list.extend((0..60).map(|_| grown_batch(&mut random)));
    list
}

/// None, one and several tables, refused ones among them, with each ending.
fn small_batches(random: &mut Random) -> Vec<Vec<u8>> {
    let all: Vec<Vec<u8>> = examples().into_iter().map(|e| e.bytes).collect();
    let refused: Vec<Vec<u8>> = (1..=8).map(|number| refused_table(random, number)).collect();
    let mut list = Vec::new();
    for tables in [vec![], vec![example("E5")], all, refused] {
        for ending in [Ending::Clean, Ending::WrongMark, Ending::ShortHeader(2), Ending::ShortTable(1)] {
            list.push([pack(&tables), ending_bytes(random, ending)].concat());
        }
    }
    list
}

/// The largest table full, and not full behind one above the limit.
fn large_inside() -> Vec<Vec<u8>> {
    let chain = |size: usize| far_read(size).concat();
    let full = MOST_RECORDS;
    vec![
        pack(&[example("E5"), chain(full), example("E1")]),
        pack(&[chain(full + 1), chain(full - 1), example("E9")]),
    ]
}

/// The batch with an output of the exact size, a byte less, none, and more.
fn with_each_output(random: &mut Random, batch: Vec<u8>) -> Vec<Question> {
    let exact = text_size(&batch);
    let sizes = [exact, exact - 1, 0, exact + 1 + random.below(50)];
    sizes.map(|size| ask(size, batch.clone())).to_vec()
}

fn ask(output_size: usize, batch: Vec<u8>) -> Question {
    let output_size = u16::try_from(output_size).expect("an output that two bytes can tell");
    Question::Figures { output_size, batch }
}

/// How many bytes the figures take.
fn text_size(batch: &[u8]) -> usize {
    text_of(&figures_of(batch, usize::MAX)).len()
}

/// Numbers of each length, just below and just above: the text grows by a byte for each line that has it.
fn long_numbers() -> Vec<Question> {
    let mut list = Vec::new();
    for tables in [9, 10, 99, 100, 999, 1_000, 9_999, 10_000] {
        let batch = pack(&vec![[]; tables]);
        list.push(ask(text_size(&batch), batch));
    }
    let batch = pack(&vec![example("E5"); 100]);
    list.extend([ask(text_size(&batch), batch.clone()), ask(text_size(&batch) - 1, batch)]);
    list
}

/// Batches around the limit, with outputs around what they take: few, for they are long.
fn around_the_limit() -> Vec<Question> {
    let of_size = |size: usize| pack(&[vec![0x54; size - 4]]);
    let short_header = [of_size(MOST_BYTES - 2), vec![0x54]].concat();
    let exact = text_size(&of_size(MOST_BYTES));
    let exact_refusal = text_size(&of_size(MOST_BYTES + 1));
    vec![
        ask(exact, of_size(MOST_BYTES)),
        ask(text_size(&short_header), short_header),
        ask(exact_refusal, of_size(MOST_BYTES + 1)),
        ask(exact_refusal - 1, of_size(MOST_BYTES + 1)),
        ask(exact_refusal + 9, vec![0; MOST_BYTES + 1]),
        ask(0, vec![0; MOST_BYTES + 1]),
    ]
}

/// One to four tables of any shape, any ending, and mostly enough output.
fn grown_batch(random: &mut Random) -> Question {
    let tables: Vec<Vec<u8>> = (0..1 + random.below(4)).map(|_| any_size_table(random).concat()).collect();
    let ending = random.pick(&ENDINGS);
    let batch = [pack(&tables), ending_bytes(random, ending)].concat();
    let exact = text_size(&batch);
    let longer = exact + random.below(100);
    let size = random.pick(&[exact, exact, longer, longer, exact - 1, exact / 2, 0]);
    ask(size, batch)
}

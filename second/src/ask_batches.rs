//! Making the questions about batches: what they hold, how they end, and how much output is lent.

use crate::batch::{read_batch, MOST_BYTES};
use crate::examples::{example, examples};
use crate::gadgets::far_read;
use crate::generate::any_size_table;
use crate::large_gadgets::{patterns, SIZES};
use crate::pack::{ending_bytes, pack, refused_table, ENDINGS};
use crate::questions::Question;
use crate::random::Random;
use crate::table::MOST_RECORDS;

/// Batches chosen to reach everything, then grown ones.
pub fn ask_batches(seed: u64) -> Vec<Question> {
    // Chances of its own, so that all other questions of a seed stay what they are.
    let mut random = Random::new(!seed);
    let mut list = Vec::new();
    let small = small_batches(&mut random);
    let refused = refused_inside(&mut random);
    for batch in small.into_iter().chain(refused).chain(large_inside()) {
        list.extend(with_each_output(&mut random, batch));
    }
    list.extend(large_batches());
    list.extend((0..120).map(|_| grown_batch(&mut random)));
    list
}

/// None, one and several small tables, with each ending.
fn small_batches(random: &mut Random) -> Vec<Vec<u8>> {
    let all: Vec<Vec<u8>> = examples().into_iter().map(|e| e.bytes).collect();
    let empty = Vec::new();
    let contents: [Vec<Vec<u8>>; 7] = [
        vec![],
        vec![empty.clone()],
        vec![example("E1")],
        vec![example("E2")],
        vec![empty.clone(), example("E5"), empty],
        vec![example("E2"), example("E3"), example("E2")],
        all,
    ];
    let mut list = Vec::new();
    for tables in contents {
        for ending in ENDINGS {
            list.push([pack(&tables), ending_bytes(random, ending)].concat());
        }
    }
    list
}

/// A table of each refusal number between two good ones, which keep their own answers.
fn refused_inside(random: &mut Random) -> Vec<Vec<u8>> {
    let mut list = Vec::new();
    for number in 1..=8 {
        for _ in 0..3 {
            let tables = [example("E4"), refused_table(random, number), example("E6")];
            let ending = random.pick(&ENDINGS);
            list.push([pack(&tables), ending_bytes(random, ending)].concat());
        }
    }
    list
}

/// A large table of each size between two small ones, each another pattern; and one above the limit behind a full one.
fn large_inside() -> Vec<Vec<u8>> {
    let mut list =
        vec![pack(&[far_read(MOST_RECORDS).concat(), far_read(MOST_RECORDS + 1).concat(), example("E5")])];
    for (number, size) in SIZES.into_iter().enumerate() {
        let large = &patterns(size)[number];
        list.push(pack(&[example("E2"), large.table.concat(), example("E4")]));
    }
    list
}

/// The batch with an output of the exact size, a byte less, none, and more.
pub fn with_each_output(random: &mut Random, batch: Vec<u8>) -> Vec<Question> {
    let exact = text_size(&batch);
    let mut sizes = vec![exact, exact + 1 + random.below(100)];
    if exact > 0 {
        sizes.extend([exact - 1, 0]);
    }
    sizes.into_iter().map(|size| ask(size, batch.clone())).collect()
}

fn ask(output_size: usize, batch: Vec<u8>) -> Question {
    let output_size = u16::try_from(output_size).expect("an output that two bytes can tell");
    Question::Batch { output_size, batch }
}

/// How many bytes the answers take.
fn text_size(batch: &[u8]) -> usize {
    read_batch(batch).answers(usize::MAX).len()
}

/// Batches around the limit, and answers around the largest output. A table too long to be one is
/// answered by 15 bytes (`refused 1 at 0` and the line's end), as an empty table is.
fn large_batches() -> Vec<Question> {
    let one_table = |size: usize| pack(&[vec![0x54; size - 4]]);
    let empty_tables = |count: usize| pack(&vec![[]; count]);
    let largest_output = u16::MAX as usize;
    let short_header = [one_table(MOST_BYTES - 2), vec![0x54]].concat();
    vec![
        ask(15, short_header),
        ask(15, one_table(MOST_BYTES)),
        ask(14, one_table(MOST_BYTES)),
        ask(15, one_table(MOST_BYTES + 1)),
        ask(0, one_table(MOST_BYTES + 1)),
        ask(3, vec![0; MOST_BYTES + 1]),
        ask(largest_output, empty_tables(largest_output / 15)),
        ask(largest_output, empty_tables(largest_output / 15 + 1)),
    ]
}

/// One to four tables of any shape, any ending, and mostly enough output.
fn grown_batch(random: &mut Random) -> Question {
    let tables: Vec<Vec<u8>> = (0..1 + random.below(4)).map(|_| any_size_table(random).concat()).collect();
    let ending = random.pick(&ENDINGS);
    let batch = [pack(&tables), ending_bytes(random, ending)].concat();
    let exact = text_size(&batch);
    let longer = exact + random.below(300);
    let size = random.pick(&[exact, exact, longer, longer, exact - 1, exact / 2, 0]);
    ask(size, batch)
}

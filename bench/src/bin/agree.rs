//! agree COUNT NAME=OBJECT..: (OBJECT: a shared object, or a program) ends with 1 where a judge gives another text than the second judge, and where a finding, a
//! verdict or a refusal was never met.

use bench::agreement::Agreement;
use bench::judges;
use bench::sorts::SORTS;
use second::damage::scatter;
use second::damage_bytes::{one_byte_damaged, two_bytes_damaged};
use second::generate::generate;
use second::questions::Question;
use second::random::Random;
use second::record::Bytes;
use second::table::RECORD_BYTES;
use std::process::exit;

const SEEDS: std::ops::Range<u64> = 0..4;
/// Sizes beside the steps of four: those around a word's bits, and the last but one.
const ODD_SIZES: [usize; 7] = [63, 65, 127, 129, 191, 193, 199];
/// For so many tables of COUNT one more of each sort and size.
const TABLES_A_ROUND: usize = 400;

fn main() {
    let words: Vec<String> = std::env::args().skip(1).collect();
    let Some((Ok(count), objects)) = words.split_first().map(|(count, rest)| (count.parse(), rest)) else {
        eprintln!("usage: agree COUNT NAME=OBJECT..");
        exit(2)
    };
    let mut judges = judges::all(objects).unwrap_or_else(|why| {
        eprintln!("{why}");
        exit(2)
    });
    let second = judges.pop().expect("the second judge is the last");
    let mut agreement = Agreement::between(second, judges);
    if let Err(difference) = compare_all(&mut agreement, count) {
        println!("{difference}");
        exit(1)
    }
    exit(tell(&agreement))
}

fn compare_all(agreement: &mut Agreement, count: usize) -> Result<(), String> {
    for question in SEEDS.flat_map(|seed| generate(seed, count)) {
        if let Question::Judge { table } = question {
            agreement.compare(&table)?;
        }
    }
    let mut random = Random::new(SEEDS.end);
    for damaged in [one_byte_damaged(&mut random), two_bytes_damaged(&mut random)].concat() {
        agreement.compare(&damaged.bytes())?;
    }
    let sizes = || (12..=200).step_by(4).chain(ODD_SIZES);
    for (sort, size) in SORTS.into_iter().flat_map(|sort| sizes().map(move |size| (sort, size))) {
        for table in sort.tables(SEEDS.end, size, 1 + count / TABLES_A_ROUND) {
            agreement.compare(&table)?;
            let record = |bytes: &[u8]| Bytes::try_from(bytes).expect("sixteen bytes");
            let mut damaged: Vec<Bytes> = table.chunks(RECORD_BYTES).map(record).collect();
            scatter(&mut random, &mut damaged);
            agreement.compare(&damaged.concat())?;
        }
    }
    Ok(())
}

/// Prints what was reached and what is missing, and says how to end.
fn tell(agreement: &Agreement) -> i32 {
    println!("tables {}, no difference", agreement.tables);
    for (what, tables) in &agreement.reached {
        println!("{what}: {tables}");
    }
    let missing = agreement.missing();
    for what in &missing {
        println!("{what}: never");
    }
    i32::from(!missing.is_empty())
}

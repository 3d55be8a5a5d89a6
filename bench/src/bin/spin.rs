//! spin NAME=OBJECT SORT N SECONDS: one judge on tables of one sort with N records, again and again, for a profiler.
//!
//! In place of NAME=OBJECT it takes plain, tuned or nested, and for SORT also every.

use bench::judges::{self, Judge};
use bench::sorts::{Sort, SORTS};
use std::process::exit;
use std::time::{Duration, Instant};

const SEED: u64 = 1;
const TABLES_OF_A_SORT: usize = 20;

fn main() {
    let words: Vec<String> = std::env::args().skip(1).collect();
    let Some((mut judge, sorts, records, seconds)) = asked(&words) else {
        let names = SORTS.map(Sort::name).join(", ");
        eprintln!("usage: spin NAME=OBJECT SORT N SECONDS, with every or one of {names}");
        exit(2)
    };
    let tables: Vec<Vec<u8>> =
        sorts.iter().flat_map(|sort| sort.tables(SEED, records, TABLES_OF_A_SORT)).collect();
    let (start, mut rounds) = (Instant::now(), 0);
    while start.elapsed() < seconds {
        tables.iter().for_each(|table| judge.answer(table));
        rounds += 1;
    }
    println!("{} answers", rounds * tables.len());
}

fn asked(words: &[String]) -> Option<(Judge, Vec<Sort>, usize, Duration)> {
    let [judge, sort, records, seconds] = words else { return None };
    let judge = judges::named(judge).map_err(|why| eprintln!("{why}")).ok()?;
    let of_name = |of: &Sort| sort == "every" || sort == of.name();
    let sorts: Vec<Sort> = SORTS.into_iter().filter(of_name).collect();
    let records = records.parse().ok().filter(|records| (12..=200).contains(records))?;
    let seconds = Duration::try_from_secs_f64(seconds.parse().ok()?).ok()?;
    (!sorts.is_empty()).then_some((judge, sorts, records, seconds))
}

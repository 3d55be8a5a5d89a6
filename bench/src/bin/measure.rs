//! measure ROUNDS TABLES SIZES NAME=OBJECT..: microseconds a table, by sort and size, as a Markdown table.
//!
//! SIZES is a list as 32,64,200, and TABLES says how many there are of each sort and size. In each round every judge takes the
//! whole batch once, one judge after another, and the least of its rounds counts. No buffer is cleared between tables but by
//! the judge itself. If the variable NESTED is set, the second judge is measured too.

use bench::judges::{self, Judge};
use bench::plan::{print_head, print_row, Plan};
use std::hint::black_box;
use std::process::exit;
use std::time::{Duration, Instant};

/// A judge that has taken longer than this for a batch takes no further round of it.
const ENOUGH: Duration = Duration::from_secs(2);

fn main() {
    let words: Vec<String> = std::env::args().skip(1).collect();
    let Some((plan, mut judges)) = asked(&words) else {
        eprintln!(
            "usage: measure ROUNDS TABLES SIZES NAME=OBJECT.., with SIZES as 32,64,200, each from 12 to 200"
        );
        exit(2)
    };
    let ratios = beside(&judges).map(|k| format!("{} / {}", judges[0].name, judges[k].name));
    print_head(judges.iter().map(|judge| judge.name.clone()).chain(ratios));
    plan.each_batch(|sort, size, tables| {
        let times = measure(&mut judges, tables, plan.rounds);
        let ratios = beside(&judges).map(|k| times[0] / times[k]);
        print_row(sort, size, times.iter().copied().chain(ratios).map(|number| format!("{number:.2}")));
    });
}

fn asked(words: &[String]) -> Option<(Plan, Vec<Judge>)> {
    let (plan, objects) = Plan::of(words).filter(|(_, objects)| !objects.is_empty())?;
    let mut judges = judges::all(objects).map_err(|why| eprintln!("{why}")).ok()?;
    if std::env::var_os("NESTED").is_none() {
        judges.pop();
    }
    Some((plan, judges))
}

/// Microseconds a table for each judge.
fn measure(judges: &mut [Judge], tables: &[Vec<u8>], rounds: usize) -> Vec<f64> {
    let mut least = vec![Duration::MAX; judges.len()];
    let mut spent = vec![Duration::ZERO; judges.len()];
    for _ in 0..rounds {
        for (k, judge) in judges.iter_mut().enumerate() {
            if spent[k] > ENOUGH {
                continue;
            }
            let start = Instant::now();
            tables.iter().for_each(|table| judge.answer(black_box(table)));
            let taken = start.elapsed();
            spent[k] += taken;
            least[k] = least[k].min(taken);
        }
    }
    least.into_iter().map(|time| time.as_secs_f64() * 1e6 / tables.len() as f64).collect()
}

/// Where the judges stand that the first one is compared with.
fn beside(judges: &[Judge]) -> impl Iterator<Item = usize> + '_ {
    (1..judges.len()).filter(|&k| ["plain", "tuned"].contains(&&judges[k].name[..]))
}

//! Counting what whole batches and pairs of them reach in figures.

use crate::batch::{read_batch, MOST_BYTES};
use crate::count::Counts;
use crate::count_figures::{ending, ENDINGS};
use crate::figures::{figures_of, Figures, TABLE_REFUSALS};
use crate::figures_folder::Folder;
use crate::findings::Verdict;
use crate::joined::sums_are_due;
use crate::relations::depth;
use crate::report::Report;
use crate::table::{Refusal, MOST_RECORDS, RECORD_BYTES};
use std::cmp::Ordering;
use std::collections::BTreeMap;

/// What the batches and pairs of a folder reach, by the second judge.
pub fn count_folder(folder: &Folder) -> Counts {
    let mut counts = Counts::default();
    let mut all = BTreeMap::new();
    for (name, bytes) in &folder.batches {
        let figures = figures_of(bytes, depth());
        counts.add(ending(&figures));
        if let Ok(figures) = &figures {
            reached_by_batch(bytes, figures).into_iter().for_each(|what| counts.add(what));
        }
        all.insert(name, figures);
    }
    for (first, second) in &folder.pairs {
        let sizes = [first, second].map(|name| folder.batch(name).len());
        let reached = if sums_are_due(folder.batch(first), folder.batch(second)) {
            reached_by_pair(sizes, [&all[first], &all[second]])
        } else {
            reached_without_sums(sizes)
        };
        reached.into_iter().for_each(|what| counts.add(format!("pair: {what}")));
    }
    counts
}

fn reached_by_batch(bytes: &[u8], figures: &Figures) -> Vec<String> {
    let mut reached: Vec<String> = Vec::new();
    for (name, _) in figures.lines().iter().filter(|(_, number)| *number > 0) {
        reached.push(format!("{name} not 0"));
    }
    let twice = (0..TABLE_REFUSALS).filter(|&n| figures.refused[n] >= 2);
    reached.extend(twice.map(|n| format!("refused {} twice", n + 1)));
    let rows: [(&str, &[usize]); 3] =
        [("refusals", &figures.refused), ("findings", &figures.findings), ("verdicts", &figures.verdicts)];
    for (name, _) in rows.iter().filter(|(_, row)| all_different(row)) {
        reached.push(format!("{name} all different"));
    }
    let batch = read_batch(bytes);
    let answers = batch.reports(depth());
    reached.extend(answers.iter().flatten().flat_map(reached_by_report));
    reached.extend(reached_by_largest(figures, &batch.tables, &answers));
    reached
}

fn all_different(row: &[usize]) -> bool {
    row.iter().enumerate().all(|(n, number)| *number > 0 && !row[..n].contains(number))
}

/// Several findings in one table, of which each counts, and W beside others, which alone gives the verdict.
fn reached_by_report(report: &Report) -> Vec<String> {
    let findings = report.findings.held().iter().filter(|&&held| held).count();
    let mut reached = Vec::new();
    match findings {
        0 | 1 => {}
        2 => reached.push("a table with two findings".to_string()),
        _ => reached.push("a table with more findings".to_string()),
    }
    if findings > 1 && report.findings.verdict() == Verdict::Undefined {
        reached.push("an undefined table with other findings".to_string());
    }
    reached
}

fn reached_by_largest(
    figures: &Figures,
    tables: &[&[u8]],
    answers: &[Result<Report, Refusal>],
) -> Vec<String> {
    let mut reached = Vec::new();
    match (figures.largest, figures.tables) {
        (0, 0) => reached.push("largest 0, no table".to_string()),
        (0, _) => reached.push("largest 0, all tables refused".to_string()),
        (MOST_RECORDS, _) => reached.push(format!("largest {MOST_RECORDS}")),
        _ => {}
    }
    for (table, _) in tables.iter().zip(answers).filter(|(_, answer)| answer.is_err()) {
        let (records, past) = (table.len() / RECORD_BYTES, table.len() % RECORD_BYTES);
        if figures.largest > 0 && records > figures.largest {
            let size = if records > MOST_RECORDS { "above" } else { "within" };
            let whole = if past == 0 { "whole" } else { "broken" };
            reached.push(refused_class(size, whole));
        }
    }
    reached
}

fn refused_class(size: &str, whole: &str) -> String {
    format!("a refused table larger than the largest, {size} {MOST_RECORDS}, {whole}")
}

/// A pair whose figures are to be sums.
fn reached_by_pair(sizes: [usize; 2], sides: [&Result<Figures, Refusal>; 2]) -> Vec<String> {
    let mut reached = vec![format!("second {}", ending(sides[1]))];
    let [Ok(first), Ok(second)] = sides else { return reached };
    if first.tables == 0 {
        reached.push("first without tables".to_string());
    }
    if second.tables == 0 {
        reached.push(format!("second without tables, {}", ending(sides[1])));
    }
    let largest = match first.largest.cmp(&second.largest) {
        Ordering::Less => "in the second",
        Ordering::Equal => "in both",
        Ordering::Greater => "in the first",
    };
    if first.largest.min(second.largest) > 0 {
        reached.push(format!("largest {largest}"));
    }
    if second.ended.is_some_and(|refusal| refusal.place > 0) && first.tables > 0 {
        reached.push(format!("second {} after tables", ending(sides[1])));
    }
    let whole = sizes[0] + sizes[1];
    if whole + 1 >= MOST_BYTES {
        reached.push(format!("{whole} bytes, second {}", ending(sides[1])));
    }
    reached
}

fn reached_without_sums([first, second]: [usize; 2]) -> Vec<String> {
    let what = match first + second {
        0..=MOST_BYTES => "no sums, first ended early".to_string(),
        whole if whole == MOST_BYTES + 1 => "no sums, one byte above the limit".to_string(),
        _ => "no sums, above the limit".to_string(),
    };
    vec![what]
}

/// What the batches and pairs should reach.
pub fn required_of_folder() -> Vec<String> {
    let mut list: Vec<String> = Vec::new();
    list.extend(Figures::default().lines().iter().map(|(name, _)| format!("{name} not 0")));
    list.extend((1..=TABLE_REFUSALS).map(|number| format!("refused {number} twice")));
    list.extend(["refusals", "findings", "verdicts"].map(|row| format!("{row} all different")));
    list.extend(ENDINGS.map(|ending| ending.to_string()));
    let several = ["a table with two findings", "a table with more findings"];
    list.extend(several.map(|what| what.to_string()));
    list.push("an undefined table with other findings".to_string());
    let largest = ["0, no table".to_string(), "0, all tables refused".to_string(), MOST_RECORDS.to_string()];
    list.extend(largest.map(|what| format!("largest {what}")));
    let refused = [("within", "whole"), ("above", "whole"), ("above", "broken")];
    list.extend(refused.map(|(size, whole)| refused_class(size, whole)));
    list.extend(required_of_pairs().iter().map(|what| format!("pair: {what}")));
    list
}

fn required_of_pairs() -> Vec<String> {
    let mut list = vec!["first without tables".to_string()];
    for ending in ENDINGS.iter().filter(|&&ending| ending != "ended in 1") {
        list.push(format!("second {ending}"));
        list.push(format!("second without tables, {ending}"));
        list.push(format!("{MOST_BYTES} bytes, second {ending}"));
    }
    list.extend([14, 15].map(|number| format!("second ended in {number} after tables")));
    list.extend(["in the first", "in the second", "in both"].map(|side| format!("largest {side}")));
    let others = ["first ended early", "one byte above the limit", "above the limit"];
    list.extend(others.map(|what| format!("no sums, {what}")));
    list
}

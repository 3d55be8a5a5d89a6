//! Counting what questions and their answers reach, and naming what is missing.

use crate::count_batches::{reached_by_question, required_of_questions};
use crate::count_bytes::{reached_by_bytes, required_of_bytes};
use crate::count_figures::{reached_by_figures, required_of_figures};
use crate::count_full::{reached_by_full, required_of_full};
use crate::count_large::{reached_by_length, reached_by_pattern, required_of_large};
use crate::count_selections::{reached_by_cut, required_of_cuts};
use crate::count_updates::{reached_by_updates, required_of_updates};
use crate::findings::{FINDINGS, VERDICTS};
use crate::questions::Question;
use crate::table::MOST_RECORDS;
use std::collections::BTreeMap;

#[derive(Default)]
pub struct Counts(pub BTreeMap<String, usize>);

impl Counts {
    pub fn of(questions: &[Question], answers: &[Vec<String>]) -> Counts {
        let mut counts = Counts::default();
        for (question, answer) in questions.iter().zip(answers) {
            counts.count(question, answer);
        }
        counts
    }

    /// What one question and its answer reach.
    pub fn count(&mut self, question: &Question, answer: &[String]) {
        self.add(format!("{} questions", question.operation()));
        for line in answer {
            self.count_line(question, line);
        }
        self.count_findings(answer);
        let mut reached = match question {
            Question::Judge { table } => {
                [reached_by_updates(table, answer), reached_by_pattern(table, answer)].concat()
            }
            Question::Cut { selection, output_size, table } => {
                reached_by_cut(selection, *output_size as usize, table, answer)
            }
            Question::Batch { output_size, batch } => {
                reached_by_question(batch, *output_size as usize, answer)
            }
            Question::Figures { output_size, batch } => {
                reached_by_figures(batch, *output_size as usize, answer)
            }
            Question::Append { .. } | Question::Fetch { .. } => reached_by_full(question, answer),
        };
        reached.extend(reached_by_length(question, answer));
        reached.extend(reached_by_bytes(question, answer));
        reached.into_iter().for_each(|what| self.add(what));
    }

    pub fn add(&mut self, what: String) {
        *self.0.entry(what).or_default() += 1;
    }

    fn count_line(&mut self, question: &Question, line: &str) {
        let operation = question.operation();
        let words: Vec<&str> = line.split(' ').collect();
        match words[..] {
            ["refused", number, "at", place] | ["refused", number, "at", place, "byte", _] => {
                self.add(format!("{operation} refused {number}"));
                let place = place.parse().unwrap_or(usize::MAX);
                if (2..=8).any(|one| one.to_string() == number) {
                    self.add(format!("{operation} refused {number} {}", class(question, place)));
                }
            }
            ["events", size] => self.add(format!("size {size}")),
            ["verdict", verdict] => self.add(format!("verdict {verdict}")),
            ["A1", "none"] | ["A4", "none"] => {}
            ["A1", ..] => self.add(format!("A1 length {}", words.len() - 1)),
            ["A4", ..] => self.add(format!("A4 length {}", words.len() - 1)),
            ["cut", _] | ["count", _] | ["given"] => self.add(format!("{operation} done")),
            _ => {}
        }
    }

    /// Findings, those that stand alone, and pairs of them.
    fn count_findings(&mut self, answer: &[String]) {
        let holds = |name: &&str| {
            let start = format!("{name} ");
            answer.iter().any(|line| line.starts_with(&start) && !line.ends_with("none"))
        };
        let found: Vec<&str> = FINDINGS.iter().copied().filter(|name| holds(name)).collect();
        for (index, first) in found.iter().enumerate() {
            self.add(format!("finding {first}"));
            for second in &found[index + 1..] {
                self.add(format!("pair {first} {second}"));
            }
        }
        if let [only] = found[..] {
            self.add(format!("finding {only} only"));
        }
    }

    /// What questions should have reached and did not.
    pub fn missing(&self) -> Vec<String> {
        self.missing_of(&required())
    }

    pub fn missing_of(&self, required: &[String]) -> Vec<String> {
        required.iter().filter(|&what| !self.0.contains_key(what)).cloned().collect()
    }

    /// Prints what was reached and what is missing, and says how a program that counts should end.
    pub fn tell(&self, required: &[String]) -> i32 {
        for (what, count) in &self.0 {
            println!("{what}: {count}");
        }
        let missing = self.missing_of(required);
        for what in &missing {
            println!("MISSING: {what}");
        }
        i32::from(!missing.is_empty())
    }
}

/// Where a faulty record stands among the records tested.
fn class(question: &Question, place: usize) -> &'static str {
    let count = match question {
        Question::Append { in_use, .. } => *in_use as usize,
        other => other.table().len() / 16,
    };
    if place == count {
        "new"
    } else if place == 0 {
        "first"
    } else if place + 1 == count {
        "last"
    } else {
        "middle"
    }
}

/// What the questions of a comparison should reach.
pub fn required() -> Vec<String> {
    let mut list = required_refusals();
    list.extend(["cut", "append", "fetch"].map(|operation| format!("{operation} done")));
    for (index, first) in FINDINGS.iter().enumerate() {
        list.push(format!("finding {first}"));
        list.push(format!("finding {first} only"));
        list.extend(FINDINGS[index + 1..].iter().map(|second| format!("pair {first} {second}")));
    }
    list.extend(VERDICTS.map(|verdict| format!("verdict {verdict}")));
    list.extend((2..=30).map(|length| format!("A1 length {length}")));
    list.extend((1..=30).map(|length| format!("A4 length {length}")));
    list.extend((1..=MOST_RECORDS).map(|size| format!("size {size}")));
    list.extend(required_of_updates());
    list.extend(required_of_large());
    list.extend(required_of_full());
    list.extend(required_of_cuts());
    list.extend(required_of_bytes());
    list.extend(required_of_questions());
    list.extend(required_of_figures());
    list
}

fn required_refusals() -> Vec<String> {
    let mut list: Vec<String> = Vec::new();
    let numbers: [(&str, Vec<u8>); 4] = [
        ("judge", (1..=8).collect()),
        ("cut", (1..=11).collect()),
        ("append", (1..=8).chain(11..=12).collect()),
        ("fetch", vec![1, 13]),
    ];
    for (operation, reached) in numbers {
        list.extend(reached.iter().map(|number| format!("{operation} refused {number}")));
    }
    for (number, place) in (2..=8).flat_map(|n| ["first", "middle", "last"].map(|p| (n, p))) {
        // Record 0 with a good Init has no source and no sibling, so 7 and 8 never stand there.
        if number <= 6 || place != "first" {
            let operations = ["judge", "cut", "append"];
            list.extend(operations.map(|name| format!("{name} refused {number} {place}")));
        }
    }
    list.extend((3..=8).map(|number| format!("append refused {number} new")));
    list
}

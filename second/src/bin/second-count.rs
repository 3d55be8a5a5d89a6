//! second-count QUESTIONS ANSWERS: counts what they reach; ends with 1 and names it if something is missing.

use second::count::{required, Counts};
use second::files::{read_answers, read_questions};
use std::process::exit;

fn main() {
    let paths: Vec<String> = std::env::args().skip(1).collect();
    let [file, answers] = &paths[..] else {
        eprintln!("usage: second-count QUESTIONS ANSWERS");
        exit(2)
    };
    let questions = read_questions(file);
    let counts = Counts::of(&questions, &read_answers(answers, &questions));
    exit(counts.tell(&required()))
}

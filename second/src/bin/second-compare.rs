//! second-compare QUESTIONS ANSWERS ANSWERS: ends with 1 and prints each difference, or says how many agree.

use second::compare::differences;
use second::files::{read_answers, read_questions};
use std::process::exit;

const MOST_PRINTED: usize = 20;

fn main() {
    let paths: Vec<String> = std::env::args().skip(1).collect();
    let [file, one, other] = &paths[..] else {
        eprintln!("usage: second-compare QUESTIONS ANSWERS ANSWERS");
        exit(2)
    };
    let questions = read_questions(file);
    let one = read_answers(one, &questions);
    let other = read_answers(other, &questions);
    let found = differences(&questions, &one, &other);
    for difference in found.iter().take(MOST_PRINTED) {
        println!("{difference}");
    }
    println!("{} agree, {} differ", questions.len() - found.len(), found.len());
    exit(if found.is_empty() { 0 } else { 1 })
}

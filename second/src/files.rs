//! Files for the small programs: questions, and the answers to them; a fault ends the program with 2.

use crate::questions::{all_questions, split_answers, Question};
use std::process::exit;

fn fail(path: &str, why: impl std::fmt::Display) -> ! {
    eprintln!("{path}: {why}");
    exit(2)
}

pub fn read_questions(path: &str) -> Vec<Question> {
    let bytes = std::fs::read(path).unwrap_or_else(|why| fail(path, why));
    all_questions(&bytes).unwrap_or_else(|why| fail(path, why))
}

pub fn read_answers(path: &str, asked: &[Question]) -> Vec<Vec<String>> {
    let text = std::fs::read_to_string(path).unwrap_or_else(|why| fail(path, why));
    split_answers(asked, &text).unwrap_or_else(|why| fail(path, why))
}

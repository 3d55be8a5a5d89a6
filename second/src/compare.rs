//! Comparing two lists of answers to the same questions.

use crate::questions::Question;

/// A report of each difference, with the operation and the table in hex.
pub fn differences(questions: &[Question], one: &[Vec<String>], other: &[Vec<String>]) -> Vec<String> {
    let mut list = Vec::new();
    for (number, question) in questions.iter().enumerate() {
        if one[number] != other[number] {
            list.push(format!(
                "question {number} differs: {}\n- first answer:\n{}\n- second answer:\n{}",
                question.describe(),
                one[number].join("\n"),
                other[number].join("\n")
            ));
        }
    }
    list
}

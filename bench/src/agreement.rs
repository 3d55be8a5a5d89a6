//! Every judge held to the text of the second judge, and what the tables reached by which that was done.

use crate::judges::Judge;
use second::findings::{FINDINGS, VERDICTS};
use second::text::hex;
use std::collections::BTreeMap;

/// The bytes that each refusal of a record can name, by its number.
const NAMED_BYTES: [(usize, &[usize]); 7] = [
    (2, &[0]),
    (3, &[2, 3]),
    (4, &[6, 7, 8, 9, 10, 11, 12, 13, 14, 15]),
    (5, &[4, 7]),
    (6, &[5]),
    (7, &[6]),
    (8, &[5]),
];

pub struct Agreement {
    second: Judge,
    others: Vec<Judge>,
    /// How many tables were compared, and how many of them reached what.
    pub tables: usize,
    pub reached: BTreeMap<String, usize>,
}

impl Agreement {
    pub fn between(second: Judge, others: Vec<Judge>) -> Agreement {
        Agreement { second, others, tables: 0, reached: BTreeMap::new() }
    }

    /// Asks every judge about a table. A difference is told with the judge, the table and both texts.
    pub fn compare(&mut self, table: &[u8]) -> Result<(), String> {
        let expected = self.second.text(table);
        for judge in &mut self.others {
            let text = judge.text(table);
            if text != expected {
                let (name, table) = (&judge.name, hex(table));
                return Err(format!("{name} differs on {table}\n- {name}:\n{text}- nested:\n{expected}"));
            }
        }
        self.tables += 1;
        for what in expected.lines().flat_map(reached_by_line) {
            *self.reached.entry(what).or_default() += 1;
        }
        Ok(())
    }

    /// What should have been reached and was not.
    pub fn missing(&self) -> Vec<String> {
        required().into_iter().filter(|what| !self.reached.contains_key(what)).collect()
    }
}

fn reached_by_line(line: &str) -> Vec<String> {
    let words: Vec<&str> = line.split(' ').collect();
    match words[..] {
        ["refused", number, "at", _] => vec![format!("refused {number}")],
        ["refused", number, "at", _, "byte", byte] => {
            vec![format!("refused {number}"), format!("refused {number} byte {byte}")]
        }
        ["events", _] | [_, "none"] => Vec::new(),
        ["verdict", _] => vec![line.to_string()],
        [name, ..] => vec![format!("finding {name}")],
        [] => Vec::new(),
    }
}

fn required() -> Vec<String> {
    let findings = FINDINGS.iter().map(|name| format!("finding {name}"));
    let verdicts = VERDICTS.iter().map(|name| format!("verdict {name}"));
    let refusals = (1..=8).map(|number| format!("refused {number}"));
    let bytes = NAMED_BYTES
        .iter()
        .flat_map(|(number, bytes)| bytes.iter().map(move |byte| format!("refused {number} byte {byte}")));
    findings.chain(verdicts).chain(refusals).chain(bytes).collect()
}

#[cfg(test)]
mod tests {
    use super::Agreement;
    use crate::judges::named;
    use second::examples::examples;

    fn between(one: &str, other: &str) -> Agreement {
        Agreement::between(named(one).expect("a judge"), vec![named(other).expect("a judge")])
    }

    #[test]
    fn the_small_structures_reach_every_finding_and_verdict_and_no_refusal() {
        for judge in ["plain", "tuned"] {
            let mut agreement = between("nested", judge);
            for example in examples() {
                assert_eq!(agreement.compare(&example.bytes), Ok(()));
            }
            let missing = agreement.missing();
            assert!(!missing.is_empty() && missing.iter().all(|what| what.starts_with("refused ")));
        }
    }
}

//! Counting what the twin's inputs reach.

use crate::count::Counts;
use crate::count_bytes::{byte_named, required_of_named};
use crate::count_patterns::KnownPatterns;
use crate::cycles::{greatest_cycle, greatest_cycle_from, least_cycle};
use crate::examples::{examples, Example};
use crate::findings::{sc_steps, FINDINGS, VERDICTS};
use crate::questions::Question;
use crate::relations::{closure, depth, Matrix, Relations};
use crate::table::{read_table, test_length};
use crate::text::judge;
use crate::twin::{twin_text, MOST_TWIN_BYTES, MOST_TWIN_RECORDS, TOO_LARGE};
use crate::twin_files::{LENGTHS_ABOVE, LENGTHS_WITHIN};
use crate::twin_gadgets::twin_patterns;
use std::sync::LazyLock;

/// How many inputs within the limit there should be, and how many sound ones of just as many records as it allows.
const LEAST_INPUTS: usize = 2_500;
const LEAST_FULL: usize = 200;

static KNOWN: LazyLock<KnownPatterns> = LazyLock::new(|| KnownPatterns::of(twin_patterns()));
static EXAMPLES: LazyLock<Vec<Example>> = LazyLock::new(examples);

/// What the inputs reach, by the second judge. One within the limit counts as a table that is judged.
pub fn count_inputs(inputs: &[Vec<u8>]) -> Counts {
    let mut counts = Counts::default();
    for bytes in inputs {
        let text = twin_text(bytes, depth());
        if text == TOO_LARGE {
            reached_above(bytes).into_iter().for_each(|what| counts.add(what));
            continue;
        }
        let answer: Vec<String> = text.lines().map(|line| line.to_string()).collect();
        counts.count(&Question::Judge { table: bytes.clone() }, &answer);
        let mut reached = KNOWN.reached(bytes, &answer);
        reached.extend(reached_by_cycles(bytes));
        reached.push(within_class(bytes.len(), &answer[0]));
        reached.extend(example_class(bytes));
        reached.extend(byte_named(&answer[0]).map(|(number, place, _)| refused_class(number, place)));
        reached.into_iter().for_each(|what| counts.add(what));
    }
    count_enough(&mut counts, inputs);
    counts
}

const ENOUGH_INPUTS: &str = "enough inputs within the limit";
const ENOUGH_FULL: &str = "enough sound tables of 24 records";

fn count_enough(counts: &mut Counts, inputs: &[Vec<u8>]) {
    if inputs.iter().filter(|bytes| bytes.len() <= MOST_TWIN_BYTES).count() >= LEAST_INPUTS {
        counts.add(ENOUGH_INPUTS.to_string());
    }
    if counts.0.get(&format!("size {MOST_TWIN_RECORDS}")).is_some_and(|&full| full >= LEAST_FULL) {
        counts.add(ENOUGH_FULL.to_string());
    }
}

/// The answer without what follows its first numbers: `taken`, or `refused 4`.
fn result_of(line: &str) -> &str {
    if line.starts_with("events ") {
        return "taken";
    }
    line.split_once(" at ").map_or(line, |(refused, _)| refused)
}

fn within_class(length: usize, line: &str) -> String {
    format!("{length} bytes {}", result_of(line))
}

fn above_class(length: usize, line: &str) -> String {
    format!("{length} bytes too large, else {}", result_of(line))
}

/// A refusal by its record: of the last one of a full table is asked for.
fn refused_class(number: u8, place: usize) -> String {
    format!("refused {number} at record {place}")
}

/// The example that a table is.
fn example_class(bytes: &[u8]) -> Option<String> {
    EXAMPLES.iter().find(|example| example.bytes == bytes).map(|example| example.name.to_string())
}

const FIRST_TAKEN: &str = "too large, but the first 384 bytes a sound table";

/// What an input that is too large reaches: by its length, by what the judge would say, and by what it would say of as
/// much as is within the limit.
fn reached_above(bytes: &[u8]) -> Vec<String> {
    let mut reached = vec!["too large".to_string(), above_class(bytes.len(), &judge(bytes, depth()))];
    reached.extend(read_table(&bytes[..MOST_TWIN_BYTES]).is_ok().then(|| FIRST_TAKEN.to_string()));
    reached
}

/// What the cycles of a relation are asked to show besides the least one.
type CycleClass = (&'static str, fn(&Matrix, &[usize]) -> bool);
const CYCLE_CLASSES: [CycleClass; 3] = [
    ("another cycle of as few records", |step, least| greatest_cycle(step).as_deref() != Some(least)),
    ("another cycle of as few records from the same one", |step, least| {
        greatest_cycle_from(step, least[0]).as_deref() != Some(least)
    }),
    ("a longer cycle from an earlier record", |step, least| {
        let reached = closure(step);
        (0..least[0]).any(|record| reached[record][record])
    }),
];

fn cycle_class(finding: &str, class: &str) -> String {
    format!("{finding}: {class}")
}

fn reached_by_cycles(bytes: &[u8]) -> Vec<String> {
    let Ok(records) = read_table(bytes) else { return Vec::new() };
    let relations = Relations::of(&records, depth());
    let steps = [("A1", &relations.wb0), ("A4", &sc_steps(&records, &relations))];
    let mut reached = Vec::new();
    for (finding, step) in steps {
        let Some(least) = least_cycle(step) else { continue };
        let held = CYCLE_CLASSES.iter().filter(|(_, holds)| holds(step, &least));
        reached.extend(held.map(|(class, _)| cycle_class(finding, class)));
    }
    reached
}

/// What the inputs should reach.
pub fn required_of_inputs() -> Vec<String> {
    let mut list = vec![ENOUGH_INPUTS.to_string(), ENOUGH_FULL.to_string()];
    list.extend(required_of_lengths());
    list.extend(required_of_reports());
    list.extend(required_of_named());
    list.extend((1..=8).map(|number| format!("judge refused {number}")));
    list.extend((2..=8).map(|number| refused_class(number, MOST_TWIN_RECORDS - 1)));
    list.extend(EXAMPLES.iter().map(|example| example.name.to_string()));
    list.extend(KNOWN.required_as_built());
    list.extend(KNOWN.required_in_another_order());
    list
}

fn required_of_reports() -> Vec<String> {
    let mut list: Vec<String> = (1..=MOST_TWIN_RECORDS).map(|size| format!("size {size}")).collect();
    for (index, first) in FINDINGS.iter().enumerate() {
        list.push(format!("finding {first} only"));
        list.extend(FINDINGS[index + 1..].iter().map(|second| format!("pair {first} {second}")));
    }
    list.extend(VERDICTS.map(|verdict| format!("verdict {verdict}")));
    // The longest that the patterns reach with 24 records.
    list.extend((2..=11).map(|length| format!("A1 length {length}")));
    list.extend((1..=12).map(|length| format!("A4 length {length}")));
    for (class, _) in CYCLE_CLASSES {
        list.extend(["A1", "A4"].map(|finding| cycle_class(finding, class)));
    }
    list
}

/// Each length with what a sound table cut off there and zeros are answered, or would be; and each refusal of a full table.
fn required_of_lengths() -> Vec<String> {
    let sound = |length| if test_length(length).is_ok() { "events " } else { "refused 1" };
    let mut list = vec!["too large".to_string(), FIRST_TAKEN.to_string()];
    list.extend(LENGTHS_WITHIN.map(|length| within_class(length, sound(length))));
    list.extend((2..=8).map(|number| within_class(MOST_TWIN_BYTES, &format!("refused {number}"))));
    list.extend(LENGTHS_ABOVE.map(|length| above_class(length, sound(length))));
    list.extend([400, 3_200].map(|length| above_class(length, "refused 2")));
    list
}

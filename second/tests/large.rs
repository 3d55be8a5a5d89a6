//! Large tables: the patterns show what they are made for, and the questions about them keep to what can be asked.

use second::ask_full::ask_full;
use second::ask_large::{ask_large, ask_lengths};
use second::builder::THREADS;
use second::count::Counts;
use second::count_full::required_of_full;
use second::count_large::required_of_large;
use second::generate::generate;
use second::large_gadgets::{lacking, patterns, Pattern, LACKS, SIZES};
use second::questions::{split_answers, Question, MOST_PART};
use second::random::Random;
use second::record::Bytes;
use second::table::{read_table, MOST_RECORDS};
use second::text::judge;

/// The finding lines that hold, by name and numbers.
fn found(table: &[Bytes]) -> Vec<(String, Vec<usize>)> {
    let answer = judge(&table.concat(), usize::MAX);
    assert!(answer.starts_with(&format!("events {}\n", table.len())), "{answer}");
    let lines = answer.lines().filter(|line| line.starts_with(['R', 'A', 'W']) && !line.ends_with("none"));
    lines
        .map(|line| {
            let (name, numbers) = line.split_once(' ').expect("a finding and its numbers");
            (name.to_string(), numbers.split(' ').map(|number| number.parse().expect("a number")).collect())
        })
        .collect()
}

/// The only finding of the pattern with this name and size.
fn only_finding(name: &str, size: usize) -> Vec<usize> {
    let pattern = patterns(size).into_iter().find(|pattern| pattern.name == name).expect("a pattern");
    let [(_, numbers)] = &found(&pattern.table)[..] else { panic!("{name} of {size} has another finding") };
    numbers.clone()
}

#[test]
fn patterns_show_their_findings_in_every_size_and_order() {
    let mut random = Random::new(1);
    for pattern in (65..=MOST_RECORDS).step_by(11).chain(SIZES).flat_map(patterns) {
        let mut tables = vec![pattern.table.clone()];
        tables.extend(pattern.can_be_relisted.then(|| pattern.relisted(&mut random)));
        for table in tables {
            assert_shows(&pattern, &table);
        }
    }
}

fn assert_shows(pattern: &Pattern, table: &[Bytes]) {
    let findings = found(table);
    let names: Vec<&str> = findings.iter().map(|(name, _)| name.as_str()).collect();
    assert_eq!(names, pattern.findings, "{} of {}", pattern.name, table.len());
    if let Some((name, length)) = pattern.cycle {
        let cycle = findings.iter().find(|(other, _)| other == name);
        assert_eq!(cycle.map(|(_, numbers)| numbers.len()), Some(length));
    }
}

#[test]
fn what_is_far_away_decides() {
    for size in SIZES {
        for name in ["chain", "relay"] {
            assert_eq!(only_finding(name, size), [size - 1]);
        }
        assert_eq!(only_finding("updates far apart", size), [3, size - 1]);
        assert_eq!(only_finding("threads below each other", size), [size - 2, size - 1]);
        let [_, last] = only_finding("tree of threads", size)[..] else { panic!("a pair") };
        assert_eq!(last, size - 1);
    }
}

#[test]
fn cycles_are_as_long_as_is_told() {
    let lengths = |size| patterns(size).iter().filter_map(|pattern| pattern.cycle).collect::<Vec<_>>();
    assert_eq!(lengths(65), [("A1", 31), ("A4", 24)]);
    assert_eq!(lengths(200), [("A1", 99), ("A4", 60)]);
}

#[test]
fn wide_tables_and_trees_have_every_thread() {
    for size in SIZES {
        for name in ["relay", "wide branch", "tree of threads", "threads below each other"] {
            let pattern = patterns(size).into_iter().find(|pattern| pattern.name == name).expect("a pattern");
            let threads =
                (0..THREADS).filter(|&thread| pattern.table.iter().any(|record| record[4] == thread));
            assert_eq!(threads.count(), THREADS as usize, "{name}");
        }
        let wide = &patterns(size)[4];
        let most =
            (0..size).map(|n| wide.table.iter().filter(|record| record[5] as usize == n).count()).max();
        assert!(most >= Some((size - 31) / 2), "{most:?}");
    }
}

#[test]
fn tables_that_can_lack_something_lack_nothing_yet() {
    for (size, lack) in SIZES.into_iter().flat_map(|size| LACKS.map(|lack| (size, lack))) {
        let (table, left_out) = lacking(size, lack);
        assert_eq!(read_table(&table.concat()).map(|records| records.len()), Ok(size));
        assert!(left_out < size - 1);
    }
}

#[test]
fn the_questions_of_several_seeds_miss_nothing() {
    for seed in [1, 2, 3, 2026] {
        let questions = [ask_large(seed), ask_lengths(), ask_full(seed)].concat();
        assert!(questions.len() < 800, "{} questions take too long", questions.len());
        let text: String = questions.iter().map(|question| question.answer(usize::MAX)).collect();
        let answers = split_answers(&questions, &text).expect("whole answers");
        let required = [required_of_large(), required_of_full()].concat();
        let missing = Counts::of(&questions, &answers).missing_of(&required);
        assert!(missing.is_empty(), "seed {seed} misses {missing:?}");
    }
}

#[test]
fn a_judge_that_stops_early_reaches_no_chain() {
    let questions = ask_large(1);
    let text: String = questions.iter().map(|question| question.answer(10)).collect();
    let answers = split_answers(&questions, &text).expect("whole answers");
    let missing = Counts::of(&questions, &answers).missing_of(&required_of_large());
    for name in ["chain", "relay"] {
        assert_eq!(missing.iter().filter(|class| class.starts_with(name)).count() % SIZES.len(), 0);
        assert!(missing.iter().any(|class| class.starts_with(name)), "{missing:?}");
    }
}

#[test]
fn questions_keep_to_the_bytes_that_the_programs_take() {
    for question in generate(1, 2300) {
        match question {
            Question::Batch { .. } | Question::Figures { .. } => {}
            Question::Cut { ref selection, output_size, ref table } => {
                assert!(selection.len().max(output_size as usize).max(table.len()) <= MOST_PART);
            }
            other => assert!(other.table().len() <= MOST_PART),
        }
    }
}

#[test]
fn large_tables_are_some_hundreds() {
    for seed in [1, 2026] {
        let records = |question: &Question| match question {
            Question::Judge { table } | Question::Cut { table, .. } => table.len() / 16,
            _ => 0,
        };
        let large = generate(seed, 2300).iter().filter(|question| records(question) > 128).count();
        assert!((200..500).contains(&large), "{large} tables of more than 128 records");
    }
}

//! The twin, against what request W6 says of it: its limit, its text, what is generated for it, and the wrong ones.

use second::builder::Builder;
use second::count_twin::{count_inputs, required_of_inputs};
use second::cycles::{greatest_cycle, greatest_cycle_from, least_cycle};
use second::examples::{example, examples};
use second::findings::FINDINGS;
use second::gadgets::{double_update, far_read};
use second::large_gadgets::Pattern;
use second::random::Random;
use second::record::{init, load, store, Bytes};
use second::relations::{matrix, Matrix};
use second::report::report_on;
use second::table::NONE;
use second::text::judge;
use second::twin::twin_text;
use second::twin_files::twin_files;
use second::twin_gadgets::{ladder_table, ladders, twin_patterns};
use second::wrong::Way;
use second::wrong_twin::wrong_twin;

const NA: u8 = 0;
const ACQ: u8 = 1;

fn text(bytes: &[u8]) -> String {
    twin_text(bytes, usize::MAX)
}

#[test]
fn a_small_table_gets_the_judges_text() {
    let e2 = "events 5\nR none\nA1 none\nA2 2 4\nA3 none\nA4 none\nA5 none\nW none\nverdict inconsistent\n";
    assert_eq!(text(&example("E2")), e2);
    for example in examples() {
        assert_eq!(text(&example.bytes), judge(&example.bytes, usize::MAX));
    }
    assert_eq!(text(&[]), "refused 1 at 0\n");
    assert_eq!(text(&example("E2")[..79]), "refused 1 at 0\n");
}

#[test]
fn the_limit_is_384_bytes_before_any_test() {
    let full = far_read(24).concat();
    assert_eq!(full.len(), 384);
    assert_eq!(text(&full), judge(&full, usize::MAX));
    assert!(text(&full).starts_with("events 24\nR 23\n"));
    assert_eq!(text(&[0; 384]), "refused 2 at 0 byte 0\n");
    assert_eq!(text(&full[..383]), "refused 1 at 0\n");
    for above in [[&full[..], &[0]].concat(), vec![0; 385], far_read(25).concat(), far_read(200).concat()] {
        assert_eq!(text(&above), "too large\n");
    }
    assert_eq!(text(&vec![0; 70_000]), "too large\n");
}

fn shown(pattern: &Pattern, table: &[Bytes]) -> Vec<&'static str> {
    let report = report_on(&table.concat(), usize::MAX).expect("a sound table");
    if let Some((finding, length)) = pattern.cycle {
        let cycle = if finding == "A1" { &report.findings.a1 } else { &report.findings.a4 };
        assert_eq!(cycle.as_ref().map(|list| list.len()), Some(length), "{}", pattern.name);
    }
    let held = report.findings.held();
    (0..FINDINGS.len()).filter(|&n| held[n]).map(|n| FINDINGS[n]).collect()
}

#[test]
fn patterns_have_24_records_and_show_their_findings() {
    let mut random = Random::new(1);
    for pattern in twin_patterns() {
        assert_eq!(pattern.table.len(), 24, "{}", pattern.name);
        assert_eq!(shown(&pattern, &pattern.table), pattern.findings, "{}", pattern.name);
        if pattern.can_be_relisted {
            assert_eq!(shown(&pattern, &pattern.relisted(&mut random)), pattern.findings, "{}", pattern.name);
        }
    }
}

#[test]
fn each_update_of_a_ladder_has_its_two_ways_back() {
    for ladder in ladders() {
        let table = ladder_table(24, &ladder);
        let updates: Vec<usize> = (0..24).filter(|&n| table[n][2] == 3).collect();
        let reach = ladder.threads.max(ladder.source_back);
        assert!(updates.len() >= 10, "{ladder:?}");
        for place in reach..updates.len() {
            let record = table[updates[place]];
            assert_eq!(record[5] as usize, updates[place - ladder.threads], "{ladder:?}");
            assert_eq!(record[6] as usize, updates[place - ladder.source_back], "{ladder:?}");
        }
    }
}

#[test]
fn the_files_of_several_seeds_miss_nothing() {
    for seed in [1, 2, 3, 2026] {
        let inputs = twin_files(seed);
        assert!((2_500..3_000).contains(&inputs.len()), "{} files", inputs.len());
        let missing = count_inputs(&inputs).missing_of(&required_of_inputs());
        assert!(missing.is_empty(), "seed {seed} misses {missing:?}");
    }
}

#[test]
fn too_few_files_are_told() {
    let inputs = twin_files(1);
    let missing = count_inputs(&inputs[..1_000]).missing_of(&required_of_inputs());
    assert!(missing.iter().any(|what| what.starts_with("enough inputs")), "{missing:?}");
}

fn steps(size: usize, list: &[(usize, usize)]) -> Matrix {
    matrix(size, |a, b| list.contains(&(a, b)))
}

#[test]
fn the_greatest_cycle_is_another_where_there_are_several() {
    let one = steps(4, &[(1, 3), (3, 2), (2, 1)]);
    assert_eq!(greatest_cycle(&one), Some(vec![1, 3, 2]));
    assert_eq!(greatest_cycle(&one), least_cycle(&one));
    assert_eq!(greatest_cycle(&steps(3, &[(0, 1), (1, 2)])), None);
    // Two of two records each, from one record; and one of three from an earlier record.
    let several = steps(6, &[(0, 1), (1, 2), (2, 0), (3, 4), (4, 3), (3, 5), (5, 3)]);
    assert_eq!(least_cycle(&several), Some(vec![3, 4]));
    assert_eq!(greatest_cycle(&several), Some(vec![3, 5]));
    assert_eq!(greatest_cycle_from(&several, 0), Some(vec![0, 1, 2]));
    assert_eq!(greatest_cycle_from(&several, 4), None);
}

/// A read of a store that doesn't release, of another thread: R and a race, as nothing is before it.
fn unreleased() -> Vec<u8> {
    let table = [init(0, NONE), init(1, 0), init(2, 0), store(NA, 1, 1, 0, 7), load(ACQ, 2, 2, 3, 0, 7)];
    table.concat()
}

/// Two SC updates of each of two stores.
fn two_rings() -> Vec<u8> {
    let mut b = Builder::default();
    for _ in 0..2 {
        let base = b.thread(0);
        double_update(&mut b, base);
    }
    b.table.concat()
}

#[test]
fn each_wrong_way_is_wrong_and_not_everywhere() {
    let large_fault = vec![0; 400];
    let ways: [(Way, &[u8], &str); 5] = [
        (Way::SwAnySource, &unreleased(), "R none\n"),
        (Way::StopsAtThreadStart, &example("E3"), "A4 none\n"),
        (Way::AnyCycle, &two_rings(), "A4 11 12\n"),
        (Way::TooLargeAt384, &far_read(24).concat(), "too large\n"),
        (Way::TestsFirst, &large_fault, "refused 2 at 0 byte 0\n"),
    ];
    for (way, input, wrong) in ways {
        let written = wrong_twin(input, usize::MAX, way);
        assert!(written.contains(wrong) && !text(input).contains(wrong), "{way:?}: {written}");
        for right in [example("E1"), example("E2"), vec![], vec![1; 383], far_read(25).concat()] {
            assert_eq!(wrong_twin(&right, usize::MAX, way), text(&right), "{way:?}");
        }
    }
    assert_eq!(wrong_twin(&example("E9"), usize::MAX, Way::AnyCycle), text(&example("E9")));
    assert_eq!(wrong_twin(&large_fault, usize::MAX, Way::ByteOfTable), text(&large_fault));
}

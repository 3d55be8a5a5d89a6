//! The generator's patterns hold the findings that they are made for.

use second::builder::Builder;
use second::gadgets::{
    arm_ring, double_update, finding_sets, sc_ring, sized_tables, store_ring, update_ring,
};
use second::record::Bytes;
use second::sc_gadgets::{far_fr_ring, init_above_ring, long_way_ring, two_stores_ring, Way};
use second::table::read_table;
use second::text::judge;
use second::update_gadgets::{
    arms_of_token, broken_lock, far_apart, far_conflict, lock, on_arms, one_above, readers, released_lock,
    taken_twice, token_not_before, token_read_as_u, two_tokens_alike, without_source, ALL_IN_CONFLICT,
    BROKEN_LOCKS, LOCKS, NOT_ALL_IN_CONFLICT, READERS, RELEASED_LOCKS,
};

const ACQ: u8 = 1;
const SC: u8 = 4;

/// The lines of the findings that hold in a table.
fn lines_of(table: &[Bytes]) -> Vec<String> {
    let answer = judge(&table.concat(), usize::MAX);
    assert!(answer.starts_with("events "), "{answer}");
    let lines = answer.lines().filter(|line| !line.starts_with("events ") && !line.starts_with("verdict "));
    lines.filter(|line| !line.ends_with(" none")).map(|line| line.to_string()).collect()
}

/// The lines of the findings that hold in a pattern's table, and what the pattern tells of it.
fn found<T>(build: impl Fn(&mut Builder) -> T) -> (Vec<String>, T) {
    let mut builder = Builder::default();
    let told = build(&mut builder);
    (lines_of(&builder.table), told)
}

fn names_of(lines: &[String]) -> Vec<&str> {
    lines.iter().filter_map(|line| line.split(' ').next()).collect()
}

fn a5(p: u8, q: u8) -> String {
    format!("A5 {p} {q}")
}

/// How many records the cycle of this finding has in the pattern's table.
fn cycle_length(finding: &str, build: impl Fn(&mut Builder)) -> usize {
    let mut builder = Builder::default();
    build(&mut builder);
    let answer = judge(&builder.table.concat(), usize::MAX);
    let start = format!("{finding} ");
    let line = answer.lines().find(|line| line.starts_with(&start)).expect(&answer);
    assert!(!line.ends_with("none"), "{answer}");
    line.split(' ').count() - 1
}

#[test]
fn rings_have_the_lengths_asked_for() {
    for length in 2..=30 {
        assert_eq!(cycle_length("A1", |b| arm_ring(b, 0, length)), length);
    }
    for length in 2..=15 {
        assert_eq!(cycle_length("A1", |b| store_ring(b, 0, length, 2, 1)), length);
        assert_eq!(cycle_length("A4", |b| sc_ring(b, 0, length, false)), 2 * length);
    }
    for length in 2..=14 {
        assert_eq!(cycle_length("A4", |b| sc_ring(b, 0, length, true)), 2 * length + 1);
    }
    for length in 3..=15 {
        assert_eq!(cycle_length("A4", |b| update_ring(b, 0, length)), length);
    }
}

#[test]
fn long_ways_lead_round() {
    for length in 2..=5 {
        let rings = [
            cycle_length("A4", |b| far_fr_ring(b, 0, length)),
            cycle_length("A4", |b| long_way_ring(b, 0, length, Way::Flag)),
            cycle_length("A4", |b| long_way_ring(b, 0, length, Way::InitBelow)),
            cycle_length("A4", |b| two_stores_ring(b, 0, length, false)),
            cycle_length("A4", |b| two_stores_ring(b, 0, length, true)),
        ];
        assert_eq!(rings, [2 * length; 5]);
    }
    assert_eq!(cycle_length("A4", |b| init_above_ring(b, 0)), 4);
}

#[test]
fn each_set_has_the_findings_it_is_made_of() {
    let findings = ["R", "A1", "A2", "A3", "A4", "A5", "W"];
    let tables = finding_sets();
    assert_eq!(tables.len(), 128 + 7);
    for (set, table) in tables[..128].iter().enumerate() {
        let meant: Vec<&str> = (0..7).filter(|n| set >> n & 1 == 1).map(|n| findings[n]).collect();
        assert_eq!(names_of(&lines_of(table)), meant);
    }
    for (finding, table) in findings.iter().zip(&tables[128..]) {
        assert_eq!(names_of(&lines_of(table)), [*finding]);
    }
}

#[test]
fn every_pattern_is_well_formed() {
    for table in sized_tables() {
        assert_eq!(read_table(&table.concat()).map(|records| records.len()), Ok(table.len()));
    }
}

#[test]
fn readers_show_a5_where_two_are_updates() {
    for orders in READERS {
        let (lines, numbers) = found(|b| readers(b, 0, orders));
        let updates: Vec<usize> = (0..orders.len()).filter(|&n| orders[n] != ACQ).collect();
        let sc_updates: Vec<usize> = (0..orders.len()).filter(|&n| orders[n] == SC).collect();
        let mut meant = Vec::new();
        if let [p, q, ..] = sc_updates[..] {
            meant.push(format!("A4 {} {}", numbers[p], numbers[q]));
        }
        if let [p, q, ..] = updates[..] {
            meant.push(a5(numbers[p], numbers[q]));
        }
        assert_eq!(lines, meant, "{orders:?}");
    }
    assert_eq!(found(|b| double_update(b, 0)).0, ["A4 4 5", "A5 4 5"]);
    assert_eq!(found(|b| taken_twice(b, 0)).0, ["A5 3 4"]);
}

#[test]
fn updates_on_arms_show_a5_at_the_least_pair_apart() {
    for places in ALL_IN_CONFLICT {
        assert_eq!(found(|b| on_arms(b, 0, places)).0, [""; 0], "{places:?}");
    }
    for (places, [p, q]) in NOT_ALL_IN_CONFLICT {
        let (lines, numbers) = found(|b| on_arms(b, 0, places));
        assert_eq!(lines, [a5(numbers[p], numbers[q])], "{places:?}");
    }
    assert_eq!(found(|b| arms_of_token(b, 0)).0, [""; 0]);
}

#[test]
fn values_and_missing_sources_are_no_tokens() {
    assert_eq!(found(|b| token_read_as_u(b, 0, false)).0, ["A5 4 5"]);
    assert_eq!(found(|b| token_read_as_u(b, 0, true)).0, ["A5 4 5"]);
    assert_eq!(found(|b| token_not_before(b, 0)).0, ["R 5", "A5 5 6", "W 4 5"]);
    for updates in 1..=3 {
        assert_eq!(found(|b| without_source(b, 0, updates)).0, [""; 0]);
    }
    assert_eq!(found(|b| two_tokens_alike(b, 0)).0, [""; 0]);
}

#[test]
fn locks_hold_until_a_token_is_taken_again() {
    for (threads, takes, order) in LOCKS {
        assert_eq!(found(|b| lock(b, 0, threads, takes, order)).0, [""; 0]);
    }
    for (threads, takes) in RELEASED_LOCKS {
        assert_eq!(found(|b| released_lock(b, 0, threads, takes)).0, [""; 0]);
    }
    for (threads, takes, again) in BROKEN_LOCKS {
        let (lines, [p, q]) = found(|b| broken_lock(b, 0, threads, takes, again));
        assert_eq!(lines, [a5(p, q)]);
    }
}

#[test]
fn distance_keeps_no_update_from_another() {
    for between in [0, 1, 5, 20, 59] {
        let (lines, [p, q]) = found(|b| one_above(b, 0, between));
        assert_eq!(lines, ["A1 1 2".to_string(), a5(p, q)]);
    }
    for size in 6..=200 {
        assert_eq!(lines_of(&far_apart(size)), [a5(3, size as u8 - 1)]);
    }
    for size in 5..=200 {
        assert_eq!(lines_of(&far_conflict(size)), [""; 0]);
    }
}

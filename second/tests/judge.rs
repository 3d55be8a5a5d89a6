//! E1 to E11 and the edges of the documents, as the second judge answers them.

use second::examples::example;
use second::record::{init, load, load_u, store, update, update_u, Bytes};
use second::text::{hex, judge};

const NA: u8 = 0;
const ACQ: u8 = 1;
const REL: u8 = 2;
const AR: u8 = 3;
const X: u8 = 0;
const Y: u8 = 1;

fn answer(bytes: &[u8]) -> String {
    judge(bytes, usize::MAX)
}

/// The whole report, from the events and the findings that are not `none`.
fn report(events: usize, found: &[(&str, &str)], verdict: &str) -> String {
    let mut text = format!("events {events}\n");
    for name in ["R", "A1", "A2", "A3", "A4", "A5", "W"] {
        let numbers = found.iter().find(|(which, _)| *which == name).map_or("none", |(_, n)| n);
        text += &format!("{name} {numbers}\n");
    }
    text + &format!("verdict {verdict}\n")
}

#[test]
fn examples_are_judged_as_by_hand() {
    let bad = "inconsistent";
    assert_eq!(answer(&example("E1")), report(1, &[], "consistent"));
    assert_eq!(answer(&example("E2")), report(5, &[("A2", "2 4")], bad));
    assert_eq!(answer(&example("E3")), report(9, &[("A4", "4 5 7 8")], bad));
    assert_eq!(answer(&example("E4")), report(9, &[], "consistent"));
    assert_eq!(answer(&example("E5")), report(5, &[("W", "3 4")], "undefined"));
    assert_eq!(answer(&example("E6")), report(4, &[("R", "3")], bad));
    assert_eq!(answer(&example("E7")), report(2, &[], "consistent"));
    assert_eq!(answer(&example("E8")), report(12, &[], "consistent"));
    assert_eq!(answer(&example("E9")), report(11, &[("A1", "5 6")], bad));
    assert_eq!(answer(&example("E10")), report(12, &[("A3", "10 11")], bad));
    assert_eq!(answer(&example("E11")), report(6, &[("A5", "4 5")], bad));
}

#[test]
fn the_line_of_a5_stands_between_a4_and_w() {
    let text = "events 6\nR none\nA1 none\nA2 none\nA3 none\nA4 none\nA5 4 5\nW none\nverdict inconsistent\n";
    assert_eq!(answer(&example("E11")), text);
}

#[test]
fn record_four_of_e2_has_the_bytes_of_the_document() {
    assert_eq!(hex(&example("E2")[64..80]), "45560101000103000000010000000000");
}

/// A root and then loads in a row.
fn chain(records: usize) -> Vec<u8> {
    let mut table = vec![init(0, 255)];
    for number in 1..records {
        table.push(load_u(0, 0, number as u8 - 1, 255, 0));
    }
    table.concat()
}

#[test]
fn lengths_at_the_edges() {
    for records in [64, 65, 127, 128, 129, 199, 200] {
        assert_eq!(answer(&chain(records)), report(records, &[], "consistent"));
    }
    assert_eq!(answer(&chain(201)), "refused 1 at 0\n");
    assert_eq!(answer(&chain(200)[..3199]), "refused 1 at 0\n");
    assert_eq!(answer(&[]), "refused 1 at 0\n");
    assert_eq!(answer(&chain(2)[..17]), "refused 1 at 0\n");
    assert_eq!(answer(&[0; 1040]), "refused 2 at 0 byte 0\n");
    assert_eq!(answer(&[0; 3200]), "refused 2 at 0 byte 0\n");
    assert_eq!(answer(&[0; 3216]), "refused 1 at 0\n");
}

#[test]
fn threads_and_locations_at_the_edges() {
    let thread = |number| [init(0, 255), init(number, 0)].concat();
    assert_eq!(answer(&thread(15)), report(2, &[], "consistent"));
    assert_eq!(answer(&thread(16)), "refused 5 at 1 byte 4\n");
    let location = |number| [init(0, 255), store(0, 0, 0, number, 7)].concat();
    assert_eq!(answer(&location(31)), report(2, &[], "consistent"));
    assert_eq!(answer(&location(32)), "refused 5 at 1 byte 7\n");
}

#[test]
fn a_chain_is_followed_to_its_end() {
    // A read of u at the end of a chain that began with a write of its location.
    for records in [64, 65, 128, 200] {
        let last = records - 1;
        let mut table = vec![init(0, 255), store(0, 0, 0, 5, 1)];
        for number in 2..last {
            table.push(load_u(0, 0, number as u8 - 1, 255, 0));
        }
        table.push(load_u(0, 0, last as u8 - 1, 255, 5));
        let found = last.to_string();
        assert_eq!(answer(&table.concat()), report(records, &[("R", &found)], "inconsistent"));
        assert_eq!(judge(&table.concat(), 10), report(records, &[], "consistent"));
    }
}

#[test]
fn a_fault_in_the_last_of_200_records_is_told_there() {
    let mut table = chain(200);
    table[16 * 199 + 5] = 199;
    assert_eq!(answer(&table), "refused 6 at 199 byte 5\n");
    table[16 * 199 + 5] = 200;
    assert_eq!(answer(&table), "refused 6 at 199 byte 5\n");
    // The parent that a second child has already.
    table[16 * 199 + 5] = 127;
    assert_eq!(answer(&table), "refused 8 at 199 byte 5\n");
    table[16 * 198 + 6] = 198;
    assert_eq!(answer(&table), "refused 7 at 198 byte 6\n");
}

/// The root, a release store of 0 to X, threads 1 and 2 below it, and these records.
fn with_token(records: &[Bytes]) -> Vec<u8> {
    [&[init(0, 255), store(REL, 0, 0, X, 0), init(1, 1), init(2, 1)], records].concat().concat()
}

#[test]
fn updates_in_conflict_take_one_token_each_on_its_own_arm() {
    let arms = [update(AR, 1, 2, 1, X, 0, 1), update_u(AR, 1, 2, 1, X, 1)];
    assert_eq!(answer(&with_token(&arms)), report(6, &[], "consistent"));
    // Threads started on the two arms of thread 1, numbers 4 and 5.
    let below = |other_arm| {
        let arms = [load(ACQ, 1, 2, 1, X, 0), load_u(ACQ, 1, 2, 1, X)];
        let started =
            [init(3, 4), init(4, other_arm), update(AR, 3, 6, 1, X, 0, 1), update(AR, 4, 7, 1, X, 0, 1)];
        with_token(&[&arms[..], &started].concat())
    };
    assert_eq!(answer(&below(5)), report(10, &[], "consistent"));
    assert_eq!(answer(&below(4)), report(10, &[("A5", "8 9")], "inconsistent"));
}

#[test]
fn only_updates_take_a_token() {
    let (taken, read) = (update(AR, 1, 2, 1, X, 0, 1), load(ACQ, 2, 3, 1, X, 0));
    assert_eq!(answer(&with_token(&[taken, read])), report(6, &[], "consistent"));
    assert_eq!(answer(&with_token(&[read, taken])), report(6, &[], "consistent"));
    assert_eq!(answer(&with_token(&[load(ACQ, 1, 2, 1, X, 0), read])), report(6, &[], "consistent"));
}

#[test]
fn updates_without_a_source_take_no_token() {
    let table =
        [init(0, 255), init(1, 0), init(2, 0), update_u(AR, 1, 1, 255, X, 1), update_u(AR, 2, 2, 255, X, 1)];
    assert_eq!(answer(&table.concat()), report(5, &[], "consistent"));
    // Reading u from a store is taking its token.
    let one_as_u = [update(AR, 1, 2, 1, X, 0, 1), update_u(AR, 2, 3, 1, X, 1)];
    assert_eq!(answer(&with_token(&one_as_u)), report(6, &[("A5", "4 5")], "inconsistent"));
}

#[test]
fn one_value_from_two_sources_is_two_tokens() {
    // Thread 1 takes 0 and stores 0 again, which thread 2 takes.
    let handed_on = [update(AR, 1, 2, 1, X, 0, 1), store(REL, 1, 4, X, 0), update(AR, 2, 3, 5, X, 0, 1)];
    assert_eq!(answer(&with_token(&handed_on)), report(7, &[], "consistent"));
    // Thread 2 takes what thread 1's update left.
    let left = [update(AR, 1, 2, 1, X, 0, 0), update(AR, 2, 3, 4, X, 0, 0)];
    assert_eq!(answer(&with_token(&left)), report(6, &[], "consistent"));
}

#[test]
fn an_update_above_another_may_not_take_its_token() {
    let one_thread = [update(AR, 1, 2, 1, X, 0, 1), update(AR, 1, 4, 1, X, 0, 1)];
    let found = [("A1", "1 4"), ("A5", "4 5")];
    assert_eq!(answer(&with_token(&one_thread)), report(6, &found, "inconsistent"));
    let child = [update(AR, 1, 2, 1, X, 0, 1), init(3, 4), update(AR, 3, 5, 1, X, 0, 1)];
    let found = [("A1", "1 4"), ("A5", "4 6")];
    assert_eq!(answer(&with_token(&child)), report(7, &found, "inconsistent"));
}

#[test]
fn the_least_pair_has_the_smaller_number_first() {
    // Records 4 and 5 are arms of thread 1, and 6 in thread 2 is apart from both.
    let three = [update(AR, 1, 2, 1, X, 0, 1), update_u(AR, 1, 2, 1, X, 1), update(AR, 2, 3, 1, X, 0, 1)];
    assert_eq!(answer(&with_token(&three)), report(7, &[("A5", "4 6")], "inconsistent"));
    // Thread 2 is first.
    let three = [update(AR, 2, 3, 1, X, 0, 1), update_u(AR, 1, 2, 1, X, 1), update(AR, 1, 2, 1, X, 0, 1)];
    assert_eq!(answer(&with_token(&three)), report(7, &[("A5", "4 5")], "inconsistent"));
    // Record 4 is an arm of thread 1; 6 and 8 stand on the other, 8 in a thread started there.
    let on_one_arm = [
        update(AR, 1, 2, 1, X, 0, 1),
        load_u(ACQ, 1, 2, 1, X),
        update(AR, 1, 5, 1, X, 0, 1),
        init(3, 5),
        update(AR, 3, 7, 1, X, 0, 1),
    ];
    assert_eq!(answer(&with_token(&on_one_arm)), report(9, &[("A5", "6 8")], "inconsistent"));
}

#[test]
fn a5_counts_in_the_verdict_and_w_goes_before_it() {
    let taken = [update(AR, 1, 2, 1, X, 0, 1), update(AR, 2, 3, 1, X, 0, 1)];
    let racing = [store(NA, 1, 4, Y, 1), store(NA, 2, 5, Y, 2)];
    let found = [("A5", "4 5"), ("W", "6 7")];
    assert_eq!(answer(&with_token(&[taken, racing].concat())), report(8, &found, "undefined"));
    assert_eq!(answer(&with_token(&taken)), report(6, &found[..1], "inconsistent"));
}

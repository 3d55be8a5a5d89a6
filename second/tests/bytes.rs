//! The byte that a refusal names, against what request W4 says of it: each row by hand, every operation, what is generated.

use second::ask_bytes::ask_bytes;
use second::batch::batch_text;
use second::count::Counts;
use second::count_bytes::{required_of_bytes, NAMED, RESTING};
use second::damage_bytes::{one_byte_damaged, two_bytes_damaged, Table, SHAPES};
use second::damage_events::damaged_events;
use second::edit::{append, cut};
use second::examples::example;
use second::pack::pack;
use second::questions::{split_answers, Question};
use second::random::Random;
use second::record::{init, load, load_u, put_written, store, update, update_u, Bytes};
use second::selection::naming_first;
use second::table::{read_table, Refusal, NONE};
use second::text::judge;
use second::wrong::{Way, WAYS};
use second::wrong_bytes::wrong_byte;

const REL: u8 = 2;
const AR: u8 = 3;
const X: u8 = 5;

/// The root, a store of 0x0701 to X, and this record with these bytes changed.
fn table(record: Bytes, changes: &[(usize, u8)]) -> Vec<u8> {
    let mut record = record;
    changes.iter().for_each(|&(byte, value)| record[byte] = value);
    [init(0, NONE), store(REL, 0, 0, X, 0x0701), record].concat()
}

fn answer(record: Bytes, changes: &[(usize, u8)]) -> String {
    judge(&table(record, changes), usize::MAX)
}

/// The answer to the record so changed is this number and byte.
fn names(record: Bytes, changes: &[(usize, u8)], number: u8, byte: usize) {
    assert_eq!(answer(record, changes), format!("refused {number} at 2 byte {byte}\n"), "{changes:?}");
}

fn a_load() -> Bytes {
    load(1, 0, 1, 1, X, 0x0701)
}

fn a_store() -> Bytes {
    store(0, 0, 1, X, 0x0203)
}

fn an_update() -> Bytes {
    update(AR, 0, 1, 1, X, 0x0701, 0x0203)
}

fn with_u_written(mut record: Bytes) -> Bytes {
    put_written(&mut record, None);
    record
}

/// An Init, and each other kind with each of its values known and u, in the order of `RESTING`.
fn each_kind() -> Vec<Bytes> {
    let mut list = vec![init(1, 1), a_load(), load_u(1, 0, 1, 1, X), a_store(), with_u_written(a_store())];
    list.extend([an_update(), update_u(AR, 0, 1, 1, X, 0x0203)]);
    list.extend([with_u_written(an_update()), with_u_written(update_u(AR, 0, 1, 1, X, 0))]);
    list
}

#[test]
fn a_wrong_mark_names_byte_0_whichever_of_its_bytes_is_wrong() {
    for record in each_kind() {
        assert!(answer(record, &[]).starts_with("events 3\n"));
        names(record, &[(0, 0x44)], 2, 0);
        names(record, &[(1, 0x57)], 2, 0);
        names(record, &[(0, 0x56), (1, 0x45)], 2, 0);
        names(record, &[(1, 0), (2, 9), (9, 9), (4, 99)], 2, 0);
    }
}

#[test]
fn a_kind_above_3_names_byte_2_and_an_order_names_3() {
    for record in each_kind() {
        names(record, &[(2, 4)], 3, 2);
        names(record, &[(2, 255), (3, 5)], 3, 2);
        names(record, &[(3, 5)], 3, 3);
        names(record, &[(3, 5), (9, 1), (4, 16)], 3, 3);
    }
    for (record, orders) in
        [(init(1, 1), [1, 4]), (a_load(), [2, 3]), (a_store(), [1, 3]), (an_update(), [0, 1])]
    {
        orders.iter().for_each(|&order| names(record, &[(3, order)], 3, 3));
    }
}

#[test]
fn a_resting_field_names_its_byte() {
    for (record, (_, bytes)) in each_kind().into_iter().zip(RESTING) {
        for byte in 6..16 {
            // Any bit of byte 8 above the second, and any other value elsewhere.
            let changed = if byte == 8 { record[8] | 4 } else { record[byte] ^ 9 };
            let named = format!("refused 4 at 2 byte {byte}\n");
            assert_eq!(
                answer(record, &[(byte, changed)]) == named,
                bytes.contains(&byte),
                "{record:?} {byte}"
            );
        }
    }
}

#[test]
fn the_least_byte_that_is_itself_wrong() {
    // A resting value 00 07 at bytes 12 and 13, and at 10 and 11.
    names(a_load(), &[(12, 0), (13, 7)], 4, 13);
    names(a_load(), &[(12, 7), (13, 0)], 4, 12);
    names(a_load(), &[(12, 7), (13, 7)], 4, 12);
    names(with_u_written(a_store()), &[(13, 7)], 4, 13);
    names(a_store(), &[(10, 0), (11, 7)], 4, 11);
    names(init(1, 1), &[(15, 1)], 4, 15);
    names(init(1, 1), &[(15, 1), (14, 1)], 4, 14);
    for least in 6..16 {
        let changes: Vec<(usize, u8)> = (least..16).map(|byte| (byte, 7)).collect();
        names(init(1, 1), &changes, 4, least);
    }
}

#[test]
fn flags_above_3_or_of_a_value_that_the_kind_lacks_name_8() {
    for record in each_kind() {
        names(record, &[(8, 4)], 4, 8);
        names(record, &[(8, 255)], 4, 8);
    }
    names(init(1, 1), &[(8, 1)], 4, 8);
    names(init(1, 1), &[(8, 2)], 4, 8);
    names(a_load(), &[(8, 2)], 4, 8);
    names(a_load(), &[(8, 3)], 4, 8);
    names(a_store(), &[(8, 1)], 4, 8);
    // A bit that the kind has makes the number rest: then the number is at fault.
    names(a_load(), &[(8, 1)], 4, 10);
    names(load(1, 0, 1, 1, X, 0x0700), &[(8, 1)], 4, 11);
    names(a_store(), &[(8, 2)], 4, 12);
    names(an_update(), &[(8, 3)], 4, 10);
}

#[test]
fn a_thread_names_4_before_a_location_7() {
    for record in each_kind() {
        names(record, &[(4, 16)], 5, 4);
        // 4 is tested before 5, whichever byte is less.
        names(record, &[(4, 16), (14, 1)], 4, 14);
    }
    for record in each_kind().into_iter().filter(|record| record[2] != 0) {
        names(record, &[(7, 32)], 5, 7);
        names(record, &[(4, 255), (7, 255)], 5, 4);
        names(record, &[(5, NONE), (7, 32)], 5, 7);
    }
}

#[test]
fn parents_and_siblings_name_5_and_sources_6() {
    for record in each_kind() {
        names(record, &[(5, NONE)], 6, 5);
        names(record, &[(5, 2)], 6, 5);
    }
    // By the thread too.
    names(a_store(), &[(4, 1)], 6, 5);
    names(init(0, 1), &[], 6, 5);
    for record in [a_load(), an_update()] {
        names(record, &[(6, 0)], 7, 6);
        names(record, &[(6, NONE)], 7, 6);
        // By the location or the value too.
        names(record, &[(7, 6)], 7, 6);
        names(record, &[(10, 2)], 7, 6);
        names(record, &[(6, 0), (5, 0)], 7, 6);
    }
    for record in each_kind().into_iter().filter(|record| record[2] != 0) {
        names(record, &[(5, 0)], 8, 5);
    }
}

#[test]
fn record_0_names_its_bytes_as_others_do() {
    let root = |byte: usize, value: u8| {
        let mut table = example("E2");
        table[byte] = value;
        judge(&table, usize::MAX)
    };
    assert_eq!(root(1, 0), "refused 2 at 0 byte 0\n");
    assert_eq!(root(2, 1), "refused 6 at 0 byte 5\n");
    assert_eq!(root(2, 4), "refused 3 at 0 byte 2\n");
    assert_eq!(root(4, 1), "refused 6 at 0 byte 5\n");
    assert_eq!(root(5, 0), "refused 6 at 0 byte 5\n");
    assert_eq!(root(7, 32), "refused 4 at 0 byte 7\n");
}

#[test]
fn every_operation_passes_the_byte_on() {
    let damaged = table(a_load(), &[(13, 7)]);
    let refusal = Err(Refusal::at_byte(4, 2, 13));
    assert_eq!(cut(&damaged, &naming_first(1), &mut [], usize::MAX), refusal);
    assert_eq!(append(&mut damaged.clone(), 3, &init(1, 0)), refusal);
    let text = batch_text(&pack(&[example("E1"), damaged.clone()]), usize::MAX);
    assert_eq!(text, judge(&example("E1"), usize::MAX) + "refused 4 at 2 byte 13\n");
    let asked = [
        (Question::Cut { selection: naming_first(1), output_size: 1, table: damaged.clone() }, "a5"),
        (Question::Append { in_use: 3, event: init(1, 0), buffer: damaged.clone() }, ""),
    ];
    for (question, output) in asked {
        assert!(question.answer(usize::MAX).starts_with(&format!("refused 4 at 2 byte 13\n{output}")));
    }
    // The records in use are two, and the new one has its source wrong, though it stores.
    let mut buffer = table(a_load(), &[(13, 7)]);
    let mut event = a_store();
    event[6] = 1;
    assert_eq!(append(&mut buffer, 2, &event), Err(Refusal::at_byte(4, 2, 6)));
    assert_eq!(append(&mut buffer, 2, &store(1, 0, 1, X, 1)), Err(Refusal::at_byte(3, 2, 3)));
    assert_eq!(append(&mut buffer, 2, &store(0, 16, 1, 32, 1)), Err(Refusal::at_byte(5, 2, 4)));
    assert_eq!(buffer, damaged);
}

fn answers_to(questions: &[Question]) -> Vec<Vec<String>> {
    let text: String = questions.iter().map(|question| question.answer(usize::MAX)).collect();
    split_answers(questions, &text).expect("whole answers")
}

#[test]
fn only_2_to_8_name_a_byte() {
    let questions = second::generate::generate(3, 2000);
    for answer in answers_to(&questions) {
        for line in answer.iter().filter_map(|line| line.find("refused ").map(|start| &line[start..])) {
            let words: Vec<&str> = line.split(' ').collect();
            let of_record = (2..=8).contains(&words[1].parse().unwrap_or(0));
            assert_eq!(
                (words.len(), line.contains(" byte ")),
                if of_record { (6, true) } else { (4, false) }
            );
        }
    }
}

#[test]
fn tables_are_sound_before_they_are_damaged() {
    let mut random = Random::new(1);
    for (shape, turn) in SHAPES.into_iter().flat_map(|shape| (0..20).map(move |turn| (shape, turn))) {
        let sound = Table::sound(&mut random, shape, turn);
        assert_eq!(read_table(&sound.bytes()).map(|records| records.len()), Ok(sound.records.len()));
    }
    // The damaged record is the last in some tables, and in most it is not.
    let several = [(one_byte_damaged(&mut random), 1_000), (two_bytes_damaged(&mut random), 2_000)];
    for (tables, least) in several {
        assert!(tables.len() > least);
        let last = tables.iter().filter(|table| table.place + 1 == table.records.len()).count();
        assert!(last > least / 10 && last < tables.len() / 2);
    }
}

#[test]
fn the_questions_of_several_seeds_name_every_byte_and_the_count_can_fail() {
    for seed in [1, 2, 3, 2026] {
        let questions = ask_bytes(seed);
        assert!(questions.len() < 10_000, "{} questions take too long", questions.len());
        let answers = answers_to(&questions);
        let counts = Counts::of(&questions, &answers);
        let missing = counts.missing_of(&required_of_bytes());
        assert!(missing.is_empty(), "seed {seed} misses {missing:?}");
        assert!(counts.0.keys().all(|class| is_known(class)));
        // Without the answers that name byte 9, just those classes are missing.
        let (asked, answered): (Vec<Question>, Vec<Vec<String>>) =
            questions.into_iter().zip(answers).filter(|(_, answer)| !answer[0].ends_with("byte 9")).unzip();
        let missing = Counts::of(&asked, &answered).missing_of(&required_of_bytes());
        let required = required_of_bytes();
        let of_9 = required.iter().filter(|class| class.contains("byte 9")).count();
        assert_eq!((missing.len(), of_9 > 30), (of_9, true), "{missing:?}");
    }
}

/// A class of byte and kind is one of those that can be.
fn is_known(class: &str) -> bool {
    let Some((refused, kind)) = class.split_once(": ").filter(|(start, _)| start.contains("refused 4 byte"))
    else {
        return true;
    };
    let byte: usize = refused.rsplit(' ').next().and_then(|byte| byte.parse().ok()).expect("a byte");
    RESTING.iter().any(|(known, bytes)| *known == kind && bytes.contains(&byte))
}

#[test]
fn answers_without_bytes_reach_no_class() {
    let questions = ask_bytes(1);
    let without = |line: &String| line.split(" byte ").next().unwrap_or_default().to_string();
    let answers: Vec<Vec<String>> =
        answers_to(&questions).iter().map(|answer| answer.iter().map(without).collect()).collect();
    let required = required_of_bytes();
    assert_eq!(Counts::of(&questions, &answers).missing_of(&required), required);
    assert!(required.len() > 3 * NAMED.len());
}

#[test]
fn new_events_are_changed_within_what_an_event_can_carry() {
    for table in damaged_events(&mut Random::new(1)) {
        let event = table.records[table.place];
        assert_eq!(table.place + 1, table.records.len());
        assert_eq!((event[0], event[1], event[9], event[14], event[15]), (0x45, 0x56, 0, 0, 0));
        assert!(event[2] <= 3 && event[3] <= 4 && event[8] <= 3);
        // Whatever is at rest by the kind and the flags is written at rest, but for a source.
        let refusal = read_table(&table.bytes()).err();
        assert!(refusal.is_none_or(|refusal| refusal.number != 4 || refusal.byte == Some(6)), "{event:?}");
        assert!(event[2] != 0 || event[3] == 0);
    }
}

#[test]
fn the_ways_to_be_wrong_differ_where_they_should() {
    let record = init(1, 0);
    let second_wrong = [0x45, 0];
    let differs = |way: Way, right: Refusal, record: &[u8]| wrong_byte(way, right, record) != right;
    let cases: [(Refusal, &[u8], &[Way]); 8] = [
        (Refusal::at(1, 0), &[], &[Way::ByteOfLength]),
        (Refusal::at(14, 9), &[], &[]),
        (Refusal::at_byte(2, 0, 0), &second_wrong, &[Way::SecondOfMark]),
        (Refusal::at_byte(2, 3, 0), &[0, 0x56], &[Way::ByteOfTable]),
        (Refusal::at_byte(4, 0, 13), &record, &[Way::FirstOfField]),
        (Refusal::at_byte(4, 0, 12), &record, &[]),
        (Refusal::at_byte(5, 0, 4), &record, &[Way::ThreadAsLocation]),
        (Refusal::at_byte(5, 2, 7), &record, &[Way::ByteOfTable]),
    ];
    for (right, record, wrong) in cases {
        let found: Vec<Way> =
            WAYS.map(|(_, way)| way).into_iter().filter(|&way| differs(way, right, record)).collect();
        assert_eq!(found, wrong, "{right:?}");
    }
    let table = wrong_byte(Way::ByteOfTable, Refusal::at_byte(4, 17, 9), &record);
    assert_eq!(table, Refusal::at_byte(4, 17, 281));
}

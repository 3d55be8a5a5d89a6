//! Cut, append, fetch and the questions, against what document 01 says of them.

use second::edit::{append, cut, fetch, fetch_refusal};
use second::examples::{example, examples};
use second::questions::{all_questions, split_answers, Question};
use second::record::{init, load, store};
use second::selection::{naming, naming_first};
use second::table::{Refusal, NONE};

fn cut_of(name: &str, kept: &[usize], output: &mut [u8]) -> Result<usize, Refusal> {
    cut(&example(name), &naming(&kept.iter().copied().collect()), output, usize::MAX)
}

fn refusal(number: u8, place: usize) -> Refusal {
    Refusal::at(number, place)
}

#[test]
fn cuts_that_document_01_refuses() {
    let mut output = [0xa5; 1024];
    assert_eq!(cut_of("E2", &[0, 1, 3], &mut output), Err(refusal(10, 3)));
    assert_eq!(cut_of("E8", &[0, 1, 2, 3, 4, 6, 8], &mut output), Err(refusal(10, 8)));
    assert_eq!(cut_of("E2", &[], &mut output), Err(refusal(9, 0)));
    assert_eq!(cut_of("E2", &[0, 5], &mut output), Err(refusal(9, 0)));
    assert_eq!(cut_of("E2", &[0, 1], &mut output[..31]), Err(refusal(11, 0)));
    assert_eq!(cut_of("E2", &[1], &mut output[..0]), Err(refusal(10, 1)));
    assert!(output.iter().all(|&byte| byte == 0xa5));
}

#[test]
fn a_cut_writes_new_numbers_and_nothing_more() {
    let mut output = [0xa5; 200];
    let kept = [0, 1, 2, 3, 4, 5, 7, 8];
    assert_eq!(cut_of("E8", &kept, &mut output), Ok(8));
    let table = example("E8");
    assert_eq!(output[..96], table[..96]);
    assert_eq!(output[96..112], store(0, 1, 5, 1, 1));
    assert_eq!(output[112..124], table[128..140]);
    assert!(output[128..].iter().all(|&byte| byte == 0xa5));
    let mut whole = [0; 192];
    assert_eq!(cut(&table, &naming_first(12), &mut whole, usize::MAX), Ok(12));
    assert_eq!(whole[..], table[..]);
}

#[test]
fn appends_build_e2_from_nothing() {
    let table = example("E2");
    let mut buffer = [0xa5; 90];
    for n in 0..5 {
        let event: [u8; 16] = table[16 * n..16 * n + 16].try_into().unwrap();
        assert_eq!(append(&mut buffer, n, &event), Ok(n + 1));
        assert!(buffer[16 * n + 16..].iter().all(|&byte| byte == 0xa5));
    }
    assert_eq!(buffer[..80], table[..]);
    assert_eq!(append(&mut buffer, 5, &init(1, 0)), Err(refusal(11, 0)));
    assert_eq!(append(&mut buffer, 6, &init(1, 0)), Err(refusal(1, 0)));
}

#[test]
fn appends_that_are_refused() {
    let mut buffer = [0u8; 48];
    assert_eq!(append(&mut buffer, 0, &store(0, 0, 0, 0, 1)), Err(Refusal::at_byte(6, 0, 5)));
    assert_eq!(append(&mut buffer, 1, &init(0, NONE)), Err(Refusal::at_byte(2, 0, 0)));
    assert_eq!(append(&mut buffer, 0, &init(0, NONE)), Ok(1));
    assert_eq!(append(&mut buffer, 1, &store(1, 0, 0, 0, 1)), Err(Refusal::at_byte(3, 1, 3)));
    assert_eq!(append(&mut buffer, 1, &load(0, 0, 0, 255, 0, 1)), Err(Refusal::at_byte(7, 1, 6)));
}

/// The root and then stores in a row.
fn row(records: usize) -> Vec<u8> {
    let mut table = init(0, NONE).to_vec();
    (0..records - 1).for_each(|parent| table.extend(store(0, 0, parent as u8, 0, 1)));
    table
}

#[test]
fn appends_go_up_to_200_records() {
    let next = store(0, 0, 198, 0, 1);
    for (room, answer) in [(16, Ok(200)), (17, Ok(200)), (15, Err(refusal(11, 0))), (0, Err(refusal(11, 0)))]
    {
        let mut buffer = [row(199), vec![0xa5; room]].concat();
        assert_eq!(append(&mut buffer, 199, &next), answer);
        let written = if answer.is_ok() { row(200) } else { row(199) };
        assert_eq!(buffer[..written.len()], written);
        assert!(buffer[written.len()..].iter().all(|&byte| byte == 0xa5));
    }
    for room in [0, 16, 32] {
        let mut full = [row(200), vec![0xa5; room]].concat();
        assert_eq!(append(&mut full, 200, &next), Err(refusal(12, 0)));
        assert_eq!(append(&mut full, 201, &next), Err(refusal(1, 0)));
        // A record in use goes first.
        full[16 * 199 + 9] = 1;
        assert_eq!(append(&mut full, 200, &next), Err(Refusal::at_byte(4, 199, 9)));
    }
    assert_eq!(append(&mut row(200)[..3199], 200, &next), Err(refusal(1, 0)));
    // Itself and what is past it are no parent and no source of the last record.
    for link in [199, 200, 254] {
        let mut buffer = row(200);
        assert_eq!(append(&mut buffer, 199, &store(0, 0, link, 0, 1)), Err(Refusal::at_byte(6, 199, 5)));
        assert_eq!(append(&mut buffer, 199, &load(0, 0, 198, link, 0, 1)), Err(Refusal::at_byte(7, 199, 6)));
    }
}

#[test]
fn fetches_go_up_to_200_records() {
    let full = row(200);
    assert_eq!((fetch(&full, 199), fetch_refusal(&full, 199)), (&full[3184..], None));
    for asked in [200, 255, 256 + 199] {
        assert_eq!((fetch(&full, asked), fetch_refusal(&full, asked)), (&[][..], Some(refusal(13, asked))));
    }
    assert_eq!(fetch_refusal(&row(201), 0), Some(refusal(1, 0)));
}

#[test]
fn fetch_tests_only_1_and_13() {
    let table = [7u8; 32];
    assert_eq!((fetch(&table, 1), fetch_refusal(&table, 1)), (&table[16..], None));
    assert_eq!((fetch(&table, 2), fetch_refusal(&table, 2)), (&[][..], Some(refusal(13, 2))));
    assert_eq!(fetch_refusal(&table[..31], 9), Some(refusal(1, 0)));
    assert_eq!(fetch_refusal(&[], 0), Some(refusal(1, 0)));
}

#[test]
fn questions_come_back_as_they_were_written() {
    let mut list: Vec<Question> =
        examples().into_iter().map(|e| Question::Judge { table: e.bytes }).collect();
    list.push(Question::Cut { selection: naming_first(3), output_size: 0, table: example("E2") });
    list.push(Question::Append { in_use: 1, event: init(1, 0), buffer: vec![] });
    list.push(Question::Fetch { asked: 300, table: example("E2") });
    let bytes: Vec<u8> = list.iter().flat_map(|question| question.to_bytes()).collect();
    assert_eq!(all_questions(&bytes), Ok(list.clone()));
    let text: String = list.iter().map(|question| question.answer(usize::MAX)).collect();
    let answers = split_answers(&list, &text).unwrap();
    assert_eq!(answers[11], ["refused 11 at 0", ""]);
    assert_eq!(answers[12], ["refused 1 at 0", ""]);
    assert_eq!(answers[13], ["", "refused 13 at 300"]);
    assert!(split_answers(&list, &text[..text.len() - 1]).is_err());
}

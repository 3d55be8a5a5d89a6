//! Batches, against what request W1 says of them: the reading, the program's text, the one call, what is generated.

use second::batch::{answer_batch, batch_text, read_batch, Answered};
use second::batch_files::batch_files;
use second::count_batches::{count_files, required_of_files};
use second::examples::{example, examples, night};
use second::pack::pack;
use second::questions::{all_questions, split_answers, Question};
use second::table::Refusal;
use second::text::{hex, judge};

fn text(batch: &[u8]) -> String {
    batch_text(batch, usize::MAX)
}

fn alone(name: &str) -> String {
    judge(&example(name), usize::MAX)
}

fn refusal(number: u8, place: usize) -> Option<Refusal> {
    Some(Refusal::at(number, place))
}

#[test]
fn a_header_is_the_mark_and_the_length_low_byte_first() {
    assert_eq!(hex(&pack(&[&example("E1")])[..5]), "5442100045");
    assert_eq!(hex(&pack(&[[0; 0x0120]])[..5]), "5442200100");
    let table = example("E2");
    let batch = [&[0x54, 0x42, 80, 0], &table[..]].concat();
    assert_eq!(read_batch(&batch).tables, [&table[..]]);
}

#[test]
fn each_answer_is_the_one_that_the_table_gets_alone() {
    assert_eq!(text(&[]), "");
    assert_eq!(text(&pack(&[example("E2")])), alone("E2"));
    let tables: Vec<Vec<u8>> = examples().into_iter().map(|e| e.bytes).collect();
    let reports: String = examples().iter().map(|e| alone(e.name)).collect();
    assert_eq!(text(&pack(&tables)), reports);
    let odd =
        [example("E1"), vec![], example("E3")[..17].to_vec(), vec![0; 3216], vec![0; 16], example("E5")];
    let refusals = "refused 1 at 0\nrefused 1 at 0\nrefused 1 at 0\nrefused 2 at 0 byte 0\n";
    assert_eq!(text(&pack(&odd)), alone("E1") + refusals + &alone("E5"));
}

#[test]
fn a_header_is_tested_for_15_then_14_then_15() {
    let good = pack(&[example("E1")]);
    let cases: [(&[u8], u8); 11] = [
        (&[0x54], 15),
        (&[0x54, 0x42], 15),
        (&[0x54, 0x42, 0], 15),
        (&[0x00], 15),
        (&[0x42, 0x54], 15),
        (&[0x45, 0x56, 0], 15),
        (&[0x42, 0x54, 0, 0], 14),
        (&[0x54, 0x43, 0, 0], 14),
        (&[0x55, 0x42, 9, 0, 7], 14),
        (&[0x54, 0x42, 1, 0], 15),
        (&[0x54, 0x42, 0, 1, 9], 15),
    ];
    for (end, number) in cases {
        assert_eq!(text(end), format!("refused {number} at 0\n"));
        assert_eq!(text(&[&good[..], end].concat()), alone("E1") + &format!("refused {number} at 20\n"));
    }
}

#[test]
fn three_tables_cut_off_anywhere() {
    let batch = pack(&[example("E7"), vec![], example("E1")]);
    let answers = [alone("E7"), "refused 1 at 0\n".to_string(), alone("E1")];
    for length in 0..=batch.len() {
        // Headers begin at 0, 36 and 40; the batch has 60 bytes.
        let (whole, at) = match length {
            0..36 => (0, 0),
            36..40 => (1, 36),
            40..60 => (2, 40),
            _ => (3, 60),
        };
        let end = if length == at { String::new() } else { format!("refused 15 at {at}\n") };
        assert_eq!(text(&batch[..length]), answers[..whole].concat() + &end, "{length} bytes");
    }
}

#[test]
fn the_limit_is_60_000_bytes() {
    let one = |size: usize| pack(&[vec![0x54; size - 4]]);
    assert_eq!(text(&one(60_000)), "refused 1 at 0\n");
    assert_eq!(read_batch(&one(60_000)).tables.len(), 1);
    for batch in [one(60_001), vec![0; 60_001], pack(&vec![example("E1"); 3_001])] {
        let read = read_batch(&batch);
        assert_eq!((read.tables.len(), read.refusal), (0, refusal(1, 0)));
        assert_eq!(text(&batch), "refused 1 at 0\n");
    }
    assert_eq!(text(&pack(&vec![example("E1"); 3_000])), alone("E1").repeat(3_000));
    assert_eq!(text(&pack(&vec![[]; 15_000])), "refused 1 at 0\n".repeat(15_000));
}

#[test]
fn the_call_writes_the_answers_and_nothing_more() {
    let good = pack(&[example("E5"), vec![]]);
    let reports = alone("E5") + "refused 1 at 0\n";
    for (end, refusal) in [(&[][..], None), (&[0; 4], refusal(14, 88)), (&[0x54], refusal(15, 88))] {
        let batch = [&good[..], end].concat();
        let mut output = vec![0xa5; reports.len() + 9];
        let answered = Answered { tables: 2, bytes: reports.len(), refusal };
        assert_eq!(answer_batch(&batch, &mut output, usize::MAX), Ok(answered));
        assert_eq!(&output[..reports.len()], reports.as_bytes());
        assert_eq!(output[reports.len()..], [0xa5; 9]);
        let mut exact = vec![0xa5; reports.len()];
        assert_eq!(answer_batch(&batch, &mut exact, usize::MAX), Ok(answered));
    }
}

#[test]
fn the_call_refuses_11_by_what_it_would_write() {
    let good = pack(&[example("E5")]);
    let size = alone("E5").len();
    for end in [&[][..], &[0; 4], &[0x54], &[0x54, 0x42, 9, 0]] {
        for room in [0, 1, size - 1] {
            let mut output = vec![0xa5; room];
            let answer = answer_batch(&[&good[..], end].concat(), &mut output, usize::MAX);
            assert_eq!(answer, Err(Refusal::at(11, 0)));
            assert!(output.iter().all(|&byte| byte == 0xa5));
        }
    }
    // Where nothing is to be written, no output is too short.
    for (batch, refusal) in [(vec![], None), (vec![0; 4], refusal(14, 0)), (vec![0; 60_001], refusal(1, 0))] {
        let answered = Answered { tables: 0, bytes: 0, refusal };
        assert_eq!(answer_batch(&batch, &mut [], usize::MAX), Ok(answered));
    }
}

#[test]
fn questions_about_batches_come_back_and_are_answered() {
    let batch = [pack(&[[]; 2]), vec![0x54]].concat();
    let list = [
        Question::Batch { output_size: 32, batch: batch.clone() },
        Question::Batch { output_size: 0, batch: vec![] },
        Question::Batch { output_size: 29, batch },
    ];
    let bytes: Vec<u8> = list.iter().flat_map(|question| question.to_bytes()).collect();
    assert_eq!(hex(&bytes[..14]), "4220000900544200005442000054");
    assert_eq!(all_questions(&bytes), Ok(list.to_vec()));
    let text: String = list.iter().map(|question| question.answer(usize::MAX)).collect();
    let answers = split_answers(&list, &text).unwrap();
    let written = hex("refused 1 at 0\n".repeat(2).as_bytes()) + "a5a5";
    assert_eq!(answers[0], ["answered 2 tables 30 bytes, ended refused 15 at 8", &written]);
    assert_eq!(answers[1], ["answered 0 tables 0 bytes, ended cleanly", ""]);
    assert_eq!(answers[2], ["refused 11 at 0", &"a5".repeat(29)]);
}

#[test]
fn the_files_of_several_seeds_miss_nothing() {
    for seed in [1, 2, 3, 2026] {
        let batches = batch_files(seed);
        assert!(batches.len() < 450, "{} files take too long", batches.len());
        let missing = count_files(&batches).missing_of(&required_of_files());
        assert!(missing.is_empty(), "seed {seed} misses {missing:?}");
    }
}

#[test]
fn the_night_ends_as_its_readme_says() {
    let batch = night();
    let reports: String = examples().iter().map(|e| alone(e.name)).collect();
    assert_eq!(
        text(&batch.bytes),
        reports + &format!("refused 6 at 4 byte 5\nrefused 14 at {}\n", batch.ends_at)
    );
}

//! Selections and cuts of large tables, against what request W5 says of them: by hand, what is generated, ways to be wrong.

use second::ask_large_cuts::{ask_large_cuts, numbers_past};
use second::ask_selections::ask_selections;
use second::count::Counts;
use second::count_selections::required_of_cuts;
use second::edit::cut;
use second::examples::example;
use second::gadgets::far_read;
use second::large_gadgets::{lacking, Lack, LACKS, SIZES};
use second::questions::{all_questions, split_answers, Question};
use second::selection::{kept_records, named_by, naming, naming_first, SELECTION_BYTES};
use second::table::Refusal;
use second::text::hex;
use second::wrong::{Way, WAYS};
use second::wrong_selections::wrong_selection;

fn nine<T>() -> Result<T, Refusal> {
    Err(Refusal::at(9, 0))
}

/// A cut to an output that is long enough, and what it wrote.
fn cut_of(table: &[u8], selection: &[u8]) -> Result<Vec<u8>, Refusal> {
    let mut output = vec![0xa5; table.len()];
    let kept = cut(table, selection, &mut output, usize::MAX)?;
    assert!(output.split_off(16 * kept).iter().all(|&byte| byte == 0xa5));
    Ok(output)
}

#[test]
fn record_n_is_bit_n_mod_8_of_byte_n_div_8() {
    assert_eq!(SELECTION_BYTES, 25);
    let cases = [(0, 0, 1), (1, 0, 2), (7, 0, 128), (8, 1, 1), (64, 8, 1), (142, 17, 64), (199, 24, 128)];
    for (record, byte, bit) in cases {
        let mut selection = [0; 25];
        selection[byte] = bit;
        assert_eq!(named_by(&selection), [record]);
        assert_eq!(naming(&[record].into()), selection);
        assert_eq!(kept_records(&selection, record + 1), Ok(vec![record]));
        assert_eq!(kept_records(&selection, record), nine());
    }
    for record in 0..200 {
        assert_eq!(named_by(&naming(&[record].into())), [record]);
    }
    assert_eq!(named_by(&[255; 25]), (0..200).collect::<Vec<_>>());
}

#[test]
fn nine_is_given_for_what_is_not_25_bytes_long() {
    let table = example("E2");
    for length in (0..=50).filter(|&length| length != 25) {
        let mut selection = naming_first(5);
        selection.resize(length, 0);
        assert_eq!(cut_of(&table, &selection), nine());
    }
    assert_eq!(cut_of(&table, &naming_first(5)), Ok(table.clone()));
    assert_eq!(cut_of(&table, &[0; 25]), nine());
}

#[test]
fn nine_comes_after_the_tables_refusals_and_before_10_and_11() {
    let short = [0b111; 24];
    let mut damaged = example("E2");
    damaged[16 * 4 + 5] = 4;
    assert_eq!(cut_of(&damaged, &short), Err(Refusal::at_byte(6, 4, 5)));
    assert_eq!(cut_of(&damaged[..17], &short), Err(Refusal::at(1, 0)));
    let lacks_parent = naming(&[0, 3].into());
    assert_eq!(cut_of(&example("E2"), &lacks_parent), Err(Refusal::at(10, 3)));
    assert_eq!(cut_of(&example("E2"), &lacks_parent[..24]), nine());
    for (selection, answer) in
        [(naming_first(5), Err(Refusal::at(11, 0))), (naming_first(5)[..24].to_vec(), nine())]
    {
        assert_eq!(cut(&example("E2"), &selection, &mut [0; 79], usize::MAX), answer);
    }
}

#[test]
fn bits_at_the_count_and_past_it_are_nine() {
    for past in [5, 6, 7, 8, 15, 16, 63, 64, 65, 127, 128, 199] {
        assert_eq!(cut_of(&example("E2"), &naming(&[0, 1, past].into())), nine());
    }
    assert_eq!(numbers_past(65), [65, 72, 199].into());
    assert_eq!(numbers_past(128), [128, 136, 199].into());
    assert_eq!(numbers_past(199), [199].into());
    assert_eq!(numbers_past(200), [].into());
}

#[test]
fn large_tables_are_cut_to_what_is_kept() {
    for size in SIZES {
        let table = far_read(size).concat();
        assert_eq!(cut_of(&table, &naming_first(size)), Ok(table.clone()));
        assert_eq!(cut_of(&table, &naming_first(size - 1)), Ok(table[..16 * (size - 1)].to_vec()));
        assert_eq!(cut_of(&table, &naming(&[0, size - 1].into())), Err(Refusal::at(10, size - 1)));
        for lack in LACKS {
            let (table, left_out) = lacking(size, lack);
            let kept = (0..size).filter(|&n| n != left_out).collect();
            assert_eq!(cut_of(&table.concat(), &naming(&kept)), Err(Refusal::at(10, size - 1)), "{lack:?}");
        }
        // Without the record before it, the last one moves up and its parent, three before, does not.
        let table = lacking(size, Lack::Parent).0.concat();
        let without = |left_out: &[usize]| naming(&(0..size).filter(|n| !left_out.contains(n)).collect());
        let mut due = table.clone();
        due.drain(16 * (size - 2)..16 * (size - 1));
        assert_eq!(cut_of(&table, &without(&[size - 2])), Ok(due));
        // Without that one's parent too, both move up.
        let cut = cut_of(&table, &without(&[size - 2, size - 5])).expect("a cut that lacks nothing");
        let last = cut.chunks(16).last().expect("a record");
        assert_eq!((cut.len(), last[5]), (16 * (size - 2), size as u8 - 5));
    }
}

#[test]
fn a_cut_is_asked_with_its_selections_length() {
    let list = [
        Question::Cut { selection: vec![3], output_size: 0x1234, table: vec![7, 8] },
        Question::Cut { selection: vec![], output_size: 1, table: example("E1") },
        Question::Cut { selection: naming_first(1), output_size: 17, table: example("E1") },
    ];
    let bytes: Vec<u8> = list.iter().flat_map(|question| question.to_bytes()).collect();
    assert_eq!(hex(&bytes[..17]), "4301000334120200070843000001001000");
    assert_eq!(all_questions(&bytes), Ok(list.to_vec()));
    let text: String = list.iter().map(|question| question.answer(usize::MAX)).collect();
    let answers = split_answers(&list, &text).unwrap();
    assert_eq!(answers[0], ["refused 1 at 0", &"a5".repeat(0x1234)]);
    assert_eq!(answers[1], ["refused 9 at 0", "a5"]);
    assert_eq!(answers[2], ["cut 1", &(hex(&example("E1")) + "a5")]);
}

#[test]
fn the_cuts_of_several_seeds_miss_nothing_and_the_count_can_fail() {
    for seed in [1, 2, 3, 2026] {
        let questions = [ask_selections(), ask_large_cuts(seed)].concat();
        assert!(questions.len() < 1_000, "{} questions take too long", questions.len());
        let text: String = questions.iter().map(|question| question.answer(usize::MAX)).collect();
        let answers = split_answers(&questions, &text).unwrap();
        let required = required_of_cuts();
        let missing = Counts::of(&questions, &answers).missing_of(&required);
        assert!(missing.is_empty(), "seed {seed} misses {missing:?}");
        // Without selections of 25 bytes just the other lengths are reached, and the other way round.
        let is_right = |question: &Question| matches!(question, Question::Cut { selection, .. } if selection.len() == 25);
        for kept in [true, false] {
            let (asked, told): (Vec<Question>, Vec<Vec<String>>) = questions
                .iter()
                .cloned()
                .zip(answers.clone())
                .filter(|(asked, _)| is_right(asked) == kept)
                .unzip();
            let missing = Counts::of(&asked, &told).missing_of(&required).len();
            assert!(missing > 50 && missing < required.len() - 50);
        }
    }
}

#[test]
fn the_ways_to_be_wrong_differ_where_they_should() {
    let differs = |way: Way, selection: &[u8]| wrong_selection(way, selection, 5) != selection;
    // Bits 3 and 4 stay where they are whichever bit goes first.
    let (good, past, short) = (naming_first(5), naming(&[0, 5].into()), [0b11000; 3]);
    let cases: [(&[u8], &[Way]); 4] = [
        (&good, &[Way::HighBitFirst]),
        (&past, &[Way::HighBitFirst, Way::PastTheCount]),
        (&short, &[Way::AnyLength, Way::PastTheCount]),
        (&[0; 25], &[]),
    ];
    for (selection, wrong) in cases {
        let found: Vec<Way> =
            WAYS.map(|(_, way)| way).into_iter().filter(|&way| differs(way, selection)).collect();
        assert_eq!(found, wrong, "{selection:?}");
    }
    assert_eq!(wrong_selection(Way::HighBitFirst, &[1, 0x42], 9), [128, 0x42]);
    assert_eq!(wrong_selection(Way::AnyLength, &[255; 30], 200), [255; 25]);
    assert_eq!(wrong_selection(Way::PastTheCount, &[255, 255, 255], 9), [255, 1, 0]);
}

//! Figures, against what request W3 says of them: counted by hand, endings, sums, the one call, what is generated.

use second::count_figures_files::{count_folder, required_of_folder};
use second::examples::{example, night};
use second::figures::{figures_of, text_of, write_figures, Figures};
use second::figures_files::figures_files;
use second::figures_folder::Folder;
use second::joined::{pairs, sums_are_due};
use second::pack::pack;
use second::questions::{all_questions, split_answers, Question};
use second::read_figures::{joined_text, read_figures};
use second::table::Refusal;
use second::text::hex;
use second::wrong::Way;
use second::wrong_figures::wrong_figures;

fn text(batch: &[u8]) -> String {
    text_of(&figures_of(batch, usize::MAX))
}

fn figures(batch: &[u8]) -> Figures {
    figures_of(batch, usize::MAX).expect("a batch within the limit")
}

fn refusal(number: u8, place: usize) -> Option<Refusal> {
    Some(Refusal::at(number, place))
}

/// E2 has A2; E5 has W; E1 and E4 have nothing; the others are refused with 1, 1, 2 and 6.
fn eight_tables() -> Vec<u8> {
    let mut own_parent = example("E2");
    own_parent[16 * 4 + 5] = 4;
    let tables =
        [example("E2"), vec![], example("E5"), example("E1"), vec![7; 3216], vec![0; 160], own_parent];
    pack(&[&tables[..], &[example("E4")]].concat())
}

const EIGHT_TABLES: &str = "tables 8\n\
    refused 1 2\nrefused 2 1\nrefused 3 0\nrefused 4 0\nrefused 5 0\nrefused 6 1\nrefused 7 0\nrefused 8 0\n\
    R 0\nA1 0\nA2 1\nA3 0\nA4 0\nA5 0\nW 1\n\
    consistent 2\ninconsistent 1\nundefined 1\nlargest 9\n";

const NO_TABLE: &str = "tables 0\n\
    refused 1 0\nrefused 2 0\nrefused 3 0\nrefused 4 0\nrefused 5 0\nrefused 6 0\nrefused 7 0\nrefused 8 0\n\
    R 0\nA1 0\nA2 0\nA3 0\nA4 0\nA5 0\nW 0\n\
    consistent 0\ninconsistent 0\nundefined 0\nlargest 0\n";

#[test]
fn a_batch_counted_by_hand() {
    assert_eq!(text(&eight_tables()), EIGHT_TABLES);
    assert_eq!(text(&[]), NO_TABLE);
}

#[test]
fn the_night_of_the_examples() {
    let batch = night();
    let counted = Figures {
        tables: 12,
        refused: [0, 0, 0, 0, 0, 1, 0, 0],
        findings: [1; 7],
        verdicts: [4, 6, 1],
        largest: 12,
        ended: refusal(14, batch.ends_at),
    };
    assert_eq!(figures(&batch.bytes), counted);
}

/// E5 with a read of the later store on the earlier one's thread: W at 3 4, and R, as nothing puts that
/// store before the read.
fn two_findings() -> Vec<u8> {
    let mut table = example("E5");
    table.extend([0x45, 0x56, 1, 0, 1, 3, 4, 0, 0, 0, 2, 0, 0, 0, 0, 0]);
    table
}

#[test]
fn a_table_counts_for_each_of_its_findings() {
    let counted = figures(&pack(&[two_findings()]));
    assert_eq!((counted.findings, counted.verdicts), ([1, 0, 0, 0, 0, 0, 1], [0, 0, 1]));
}

#[test]
fn the_ending_is_named_and_not_counted() {
    let ends: [(&[u8], u8); 4] =
        [(&[0; 4], 14), (&[0x54], 15), (&[0x54, 0x42, 1, 0], 15), (&[0x45, 0x56, 0], 15)];
    for (end, number) in ends {
        let whole = eight_tables();
        let line = format!("refused {number} at {}\n", whole.len());
        assert_eq!(text(&[&whole[..], end].concat()), EIGHT_TABLES.to_string() + &line);
        assert_eq!(text(end), format!("{NO_TABLE}refused {number} at 0\n"));
    }
}

#[test]
fn a_batch_above_60_000_bytes_has_no_figures() {
    for batch in [vec![0; 60_001], pack(&[vec![0; 59_997]]), pack(&vec![example("E1"); 3_001])] {
        assert_eq!(text(&batch), "refused 1 at 0\n");
    }
    assert_eq!(figures(&pack(&vec![example("E1"); 3_000])).verdicts, [3_000, 0, 0]);
    // A table refused with 1 in a batch is a figure as any other.
    let full = figures(&pack(&[vec![0; 59_996]]));
    assert_eq!((full.tables, full.refused[0], full.largest, full.ended), (1, 1, 0, None));
}

#[test]
fn joined_batches_give_the_sums() {
    let (first, short) = (eight_tables(), [pack(&[example("E8")]), vec![0x54]].concat());
    for second in [vec![], pack(&[example("E8"), example("E5")]), short, vec![0; 4], first.clone()] {
        let whole = [&first[..], &second].concat();
        assert!(sums_are_due(&first, &second));
        let sum = figures(&first).joined(first.len(), &figures(&second));
        assert_eq!(figures(&whole), sum);
        assert_eq!(joined_text(&text(&first), first.len(), &text(&second)), Some(text(&whole)));
    }
    assert!(!sums_are_due(&[0x54], &[]));
    assert!(sums_are_due(&pack(&[vec![0; 59_000]]), &[0; 996]));
    assert!(!sums_are_due(&pack(&[vec![0; 59_000]]), &[0; 997]));
}

#[test]
fn texts_that_do_not_add_up_are_found() {
    let (first, second) = (eight_tables(), [pack(&[example("E8")]), vec![0x54]].concat());
    let due = joined_text(&text(&first), first.len(), &text(&second)).expect("a sum");
    assert!(
        due.starts_with("tables 9\n")
            && due.ends_with(&format!("largest 12\nrefused 15 at {}\n", first.len() + 196))
    );
    // The first says of itself that it ended early, or that it has no figures.
    assert_eq!(joined_text(&text(&second), second.len(), &text(&first)), None);
    assert_eq!(joined_text("refused 1 at 0\n", 0, EIGHT_TABLES), None);
}

#[test]
fn only_the_text_of_figures_is_read_back() {
    assert_eq!(read_figures(EIGHT_TABLES), Some(Ok(figures(&eight_tables()))));
    assert_eq!(read_figures("refused 1 at 0\n"), Some(Err(Refusal::at(1, 0))));
    let ended = format!("{EIGHT_TABLES}refused 14 at 20\n");
    assert_eq!(read_figures(&ended).unwrap().unwrap().ended, refusal(14, 20));
    let others = [
        String::new(),
        "refused 1 at 0".to_string(),
        EIGHT_TABLES.trim_end().to_string(),
        EIGHT_TABLES.replace("tables 8", "tables 08"),
        EIGHT_TABLES.replace("W 1\n", ""),
        EIGHT_TABLES.replace("A1 0\nA2 1", "A2 1\nA1 0"),
        format!("{EIGHT_TABLES}\n"),
        format!("{ended}refused 14 at 20\n"),
    ];
    for other in others {
        assert_eq!(read_figures(&other), None, "{other}");
    }
}

#[test]
fn the_call_writes_the_text_or_refuses_11() {
    let early = [pack(&[example("E1")]), vec![0; 4]].concat();
    for batch in [vec![], eight_tables(), early, vec![0; 60_001]] {
        let due = text(&batch);
        for room in [due.len(), due.len() + 9] {
            let mut output = vec![0xa5; room];
            assert_eq!(write_figures(&batch, &mut output, usize::MAX), Ok(due.len()));
            assert_eq!(&output[..due.len()], due.as_bytes());
            assert!(output[due.len()..].iter().all(|&byte| byte == 0xa5));
        }
        for room in [0, due.len() - 1] {
            let mut output = vec![0xa5; room];
            let answer = write_figures(&batch, &mut output, usize::MAX);
            assert_eq!(answer, Err(Refusal::at(11, 0)));
            assert!(output.iter().all(|&byte| byte == 0xa5));
        }
    }
}

#[test]
fn questions_about_figures_come_back_and_are_answered() {
    let list = [
        Question::Figures { output_size: 18, batch: vec![0; 60_001] },
        Question::Figures { output_size: 14, batch: vec![0; 60_001] },
        Question::Figures { output_size: NO_TABLE.len() as u16, batch: vec![] },
    ];
    let bytes: Vec<u8> = list.iter().flat_map(|question| question.to_bytes()).collect();
    assert_eq!(hex(&bytes[..5]), "4d120061ea");
    assert_eq!(all_questions(&bytes), Ok(list.to_vec()));
    let text: String = list.iter().map(|question| question.answer(usize::MAX)).collect();
    let answers = split_answers(&list, &text).unwrap();
    assert_eq!(answers[0], ["wrote 15 bytes", &(hex(b"refused 1 at 0\n") + "a5a5a5")]);
    assert_eq!(answers[1], ["refused 11 at 0", &"a5".repeat(14)]);
    assert_eq!(answers[2], [format!("wrote {} bytes", NO_TABLE.len()), hex(NO_TABLE.as_bytes())]);
}

#[test]
fn the_files_and_pairs_of_several_seeds_miss_nothing() {
    for seed in [1, 2, 3, 2026] {
        let batches = figures_files(seed);
        let pairs = pairs(seed, &batches);
        assert!(batches.len() + pairs.len() < 650, "{} files take too long", batches.len() + pairs.len());
        let missing = count_folder(&Folder::of(batches, &pairs)).missing_of(&required_of_folder());
        assert!(missing.is_empty(), "seed {seed} misses {missing:?}");
    }
}

#[test]
fn each_wrong_way_is_wrong_and_not_everywhere() {
    let batch = [eight_tables(), pack(&[two_findings()]), vec![0x54]].concat();
    let right = "A5 0\nW 2\nconsistent 2\ninconsistent 1\nundefined 2\nlargest 9\n";
    assert!(text(&batch).starts_with("tables 9\n") && text(&batch).contains(right));
    let ways = [
        (Way::LargestOfRefused, "largest 201\n"),
        (Way::OneFinding, "W 1\n"),
        (Way::EndingCounted, "tables 10\n"),
        (Way::WrongVerdict, "inconsistent 3\nundefined 0\n"),
    ];
    for (way, wrong) in ways {
        assert!(text_of(&wrong_figures(&batch, usize::MAX, way)).contains(wrong), "{way:?}");
        assert_eq!(wrong_figures(&[], usize::MAX, way), figures_of(&[], usize::MAX));
    }
    assert_eq!(wrong_figures(&batch, usize::MAX, Way::ByteOfTable), figures_of(&batch, usize::MAX));
}

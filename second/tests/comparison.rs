//! The comparison finds a judge that is wrong on purpose, and the questions reach all that it should.

use second::compare::differences;
use second::count::Counts;
use second::generate::generate;
use second::questions::split_answers;

#[test]
fn a_judge_that_stops_after_ten_steps_is_found() {
    let questions = generate(1, 2000);
    let answers = |depth| {
        let text: String = questions.iter().map(|question| question.answer(depth)).collect();
        split_answers(&questions, &text).expect("whole answers")
    };
    let right = answers(usize::MAX);
    assert!(differences(&questions, &right, &right).is_empty());
    let found = differences(&questions, &right, &answers(10));
    assert!(found.iter().any(|difference| difference.contains("judge table 4556")));
    assert!(found.iter().any(|difference| difference.contains("cut selection")));
}

#[test]
fn several_seeds_miss_nothing() {
    for seed in [1, 2, 3, 2026] {
        let questions = generate(seed, 2000);
        let text: String = questions.iter().map(|question| question.answer(usize::MAX)).collect();
        let answers = split_answers(&questions, &text).expect("whole answers");
        let missing = Counts::of(&questions, &answers).missing();
        assert!(missing.is_empty(), "seed {seed} misses {missing:?}");
    }
}

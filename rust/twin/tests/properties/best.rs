//! The best relaxation against a second enumeration, and answers against what they owe.

use crate::every::{Relaxation, consistent_relaxations};
use crate::seeds;
use twin::random::{Random, full_decisions, full_sheet, longest_sheet, small_sheet};
use twin::{Answer, Fault, Sheet};

/// Among the relaxations of greatest value, the one whose items read as a word of kept and
/// dropped is greatest, first item first.
fn winner(sheet: &Sheet, all: &[Relaxation]) -> Relaxation {
    let word = |one: &Relaxation| {
        (0..sheet.items())
            .map(|item| one.keeps(item))
            .collect::<Vec<_>>()
    };
    *all.iter()
        .max_by_key(|one| (one.value, word(one)))
        .expect("dropping everything")
}

#[test]
fn every_consistent_relaxation_in_tie_order() {
    for seed in seeds("every consistent", 115_000..116_000) {
        let sheet = small_sheet(seed, 9);
        let mut all = consistent_relaxations(&sheet);
        all.sort_by_key(|one| {
            (0..sheet.items())
                .map(|item| !one.keeps(item))
                .collect::<Vec<_>>()
        });
        let wanted: Vec<_> = all.iter().map(|one| one.decisions(&sheet)).collect();
        assert_eq!(twin::every_consistent(&sheet), wanted, "seed {seed}");
    }
}

fn best_is_the_winner(seed: u64, items: usize) {
    let sheet = small_sheet(seed, items);
    let winner = winner(&sheet, &consistent_relaxations(&sheet));
    let expected = (winner.decisions(&sheet), winner.value);
    assert_eq!(twin::best(&sheet), expected, "seed {seed}\n{sheet:?}");
}

#[test]
fn best_equals_a_second_enumeration() {
    for seed in seeds("best, up to 10 items", 100_000..106_000) {
        best_is_the_winner(seed, 10);
    }
    for seed in seeds("best, up to 16 items", 110_000..110_100) {
        best_is_the_winner(seed, 16);
    }
}

/// What is wrong with an answer, from the list of all consistent relaxations.
fn fault(sheet: &Sheet, all: &[Relaxation], tolerance: u32, answer: &Answer) -> Option<Fault> {
    let this = all
        .iter()
        .find(|one| one.decisions(sheet) == answer.decisions);
    let winner = winner(sheet, all);
    match this {
        None => Some(Fault::NotConsistent),
        Some(this) if this.value != answer.value => Some(Fault::WrongValue),
        Some(_) if winner.value > answer.ceiling => Some(Fault::CeilingTooLow),
        Some(_) if answer.ceiling > answer.value + tolerance => Some(Fault::CeilingTooHigh),
        Some(this) if tolerance == 0 && *this != winner => Some(Fault::NotFirstOfBest),
        Some(_) => None,
    }
}

#[test]
fn answers_are_judged_as_the_list_says() {
    let mut good = 0;
    for seed in seeds("answers", 120_000..123_000) {
        let sheet = small_sheet(seed, 8);
        let all = consistent_relaxations(&sheet);
        let mut random = Random::new("test", seed);
        for _ in 0..8 {
            let mut one = random.pick(&all);
            if random.once_in(2) {
                one = winner(&sheet, &all);
            }
            if random.once_in(6) {
                one.kept = random.below(1 << sheet.items()) as u32;
            }
            let value = one.value + u32::from(random.once_in(10));
            let ceiling = value + random.below(4) as u32;
            let tolerance = random.below(4) as u32;
            let answer = Answer {
                decisions: one.decisions(&sheet),
                value,
                ceiling,
            };
            let expected = fault(&sheet, &all, tolerance, &answer);
            good += usize::from(expected.is_none());
            let judged = twin::check_answer(&sheet, tolerance, &answer).err();
            assert_eq!(
                judged, expected,
                "seed {seed}\n{sheet:?}\n{answer:?} {tolerance}"
            );
        }
    }
    assert!(good > 1000, "{good} answers are good");
}

#[test]
fn large_answers_that_a_small_change_improves_are_refused() {
    let sheet = Sheet {
        catalogue: Vec::new(),
        ..full_sheet(1)
    };
    let none = Answer {
        decisions: twin::Decisions::from_letters(&sheet, &"d".repeat(96)).unwrap(),
        value: 0,
        ceiling: 0,
    };
    let judged = twin::check_answer(&sheet, 0, &none).unwrap_err();
    assert!(matches!(
        judged,
        Fault::CeilingTooLow | Fault::NotFirstOfBest
    ));
}

#[test]
fn reports_are_at_most_1024_bytes() {
    let longest = longest_sheet();
    assert_eq!(twin::write(&longest).len(), 6446);
    assert_eq!(
        twin::write(&longest),
        twin::write(&twin::read(&twin::write(&longest)).unwrap())
    );
    let lengths = seeds("reports", 130_000..130_500).filter_map(|seed| {
        let sheet = if seed % 2 == 0 {
            full_sheet(seed)
        } else {
            longest_sheet()
        };
        let decisions = full_decisions(seed, &sheet);
        let largest = twin::MOST_TOLERANCE;
        twin::report_text(&sheet, &decisions, largest, largest)
            .ok()
            .map(|text| text.len())
    });
    let longest = lengths.max().expect("a report");
    assert!(longest <= 1024, "{longest}");
}

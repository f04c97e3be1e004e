//! The sequence against all orders of the kept options.

use crate::every::{Relaxation, consistent_relaxations, pairs_of};
use crate::seeds;
use twin::random::{decisions, full_decisions, full_sheet, small_sheet};
use twin::{Decision, Refused, Sheet};

/// All orders of these slots.
fn orders(slots: &[usize]) -> Vec<Vec<usize>> {
    let Some((&first, rest)) = slots.split_first() else {
        return vec![Vec::new()];
    };
    let mut found = Vec::new();
    for shorter in orders(rest) {
        for place in 0..=shorter.len() {
            let mut order = shorter.clone();
            order.insert(place, first);
            found.push(order);
        }
    }
    found
}

/// Whether each pair stands in order.
fn respects(order: &[usize], pairs: &[(usize, usize)]) -> bool {
    let place = |slot| order.iter().position(|&other| other == slot).expect("kept");
    pairs.iter().all(|&(a, b)| place(a) < place(b))
}

/// The catalogue numbers of the smallest order that respects the pairs of a relaxation.
fn smallest(sheet: &Sheet, kept: u32) -> Option<Vec<u8>> {
    let pairs = pairs_of(sheet, kept)?;
    let slots: Vec<usize> = (0..sheet.options.len())
        .filter(|&i| kept & 1 << i != 0)
        .collect();
    let numbers = |order: Vec<usize>| order.iter().map(|&i| sheet.options[i].number).collect();
    orders(&slots)
        .into_iter()
        .filter(|order| respects(order, &pairs))
        .map(numbers)
        .min()
}

/// Bit i is set if item i is kept.
fn set_of_kept(items: &[Decision]) -> u32 {
    let kept = items
        .iter()
        .map(|&one| u32::from(one == Decision::Kept))
        .enumerate();
    kept.fold(0, |set, (item, bit)| set | bit << item)
}

#[test]
fn the_sequence_is_the_smallest_of_all_orders() {
    let mut sequenced = 0;
    for seed in seeds("sequence", 200_000..210_000) {
        let sheet = small_sheet(seed, 9);
        if sheet.options.len() > 7 {
            continue;
        }
        for variant in 0..4 {
            let list = full_decisions(seed * 4 + variant, &sheet);
            let kept = set_of_kept(&list.items(&sheet));
            let expected = smallest(&sheet, kept).map(|numbers| {
                let mut places = [0; 32];
                places[..numbers.len()].copy_from_slice(&numbers);
                places
            });
            sequenced += usize::from(expected.is_some());
            let refusal = Refused {
                number: 15,
                line: 0,
                column: 0,
            };
            let found = twin::sequence(&sheet, &list);
            assert_eq!(found, expected.ok_or(refusal), "seed {seed}\n{sheet:?}");
        }
    }
    assert!(sequenced > 15_000, "{sequenced} were sequenced");
}

#[test]
fn exactly_the_consistent_relaxations_are_sequenced() {
    for seed in seeds("sequenced", 230_000..233_000) {
        let sheet = small_sheet(seed, 8);
        let consistent = consistent_relaxations(&sheet);
        for kept in 0..1u32 << sheet.items() {
            let expected = consistent.iter().any(|other| other.kept == kept);
            let list = Relaxation { kept, value: 0 }.decisions(&sheet);
            assert_eq!(twin::is_consistent(&sheet, &list), expected, "seed {seed}");
            assert_eq!(
                twin::sequence(&sheet, &list).is_ok(),
                expected,
                "seed {seed}"
            );
        }
    }
}

#[test]
fn open_decisions_are_refused_as_14_before_15() {
    let refusal = Err(Refused {
        number: 14,
        line: 0,
        column: 0,
    });
    for seed in seeds("open decisions", 220_000..222_000) {
        let sheet = if seed % 50 == 0 {
            full_sheet(seed)
        } else {
            small_sheet(seed, 20)
        };
        let list = decisions(seed, &sheet);
        if list.items(&sheet).contains(&Decision::Open) {
            assert_eq!(twin::sequence(&sheet, &list), refusal, "seed {seed}");
        }
    }
}

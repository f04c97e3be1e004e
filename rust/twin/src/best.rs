//! The best relaxation, from a list of every choice.

use crate::decisions::{Decision, Decisions};
use crate::relaxation::is_consistent;
use crate::sheet::Sheet;

/// The most items for which every choice is looked at.
pub const MOST_ENUMERATED: usize = 16;

/// The choice with this number in tie order: "compare options in slot order, then orderings in
/// slot order. At the first difference the one that keeps the item wins." So the first item is
/// the highest bit, and 0 keeps.
fn choice(sheet: &Sheet, number: u32) -> Decisions {
    let count = sheet.items();
    let items: Vec<Decision> = (0..count)
        .map(|item| match number >> (count - 1 - item) & 1 {
            0 => Decision::Kept,
            _ => Decision::Dropped,
        })
        .collect();
    Decisions::from_items(sheet, &items)
}

/// The weights of the items that the choice with this number keeps, in sum.
fn kept_weight(weights: &[u32], number: u32) -> u32 {
    let lowest_first = weights.iter().rev().enumerate();
    lowest_first
        .map(|(bit, weight)| if number >> bit & 1 == 0 { *weight } else { 0 })
        .sum()
}

/// The best consistent relaxation and its value: the first of the greatest value in tie order.
///
/// # Panics
/// If the sheet has more than [`MOST_ENUMERATED`] items.
pub fn best(sheet: &Sheet) -> (Decisions, u32) {
    assert!(
        sheet.items() <= MOST_ENUMERATED,
        "too many items to look at every choice"
    );
    let options = sheet.options.iter().map(|option| u32::from(option.weight));
    let orderings = sheet
        .orderings
        .iter()
        .map(|ordering| u32::from(ordering.weight));
    let weights: Vec<u32> = options.chain(orderings).collect();
    let mut found: Option<(Decisions, u32)> = None;
    for number in 0..1u32 << sheet.items() {
        let value = kept_weight(&weights, number);
        if found.is_none_or(|(_, best)| value > best) {
            let choice = choice(sheet, number);
            if is_consistent(sheet, &choice) {
                found = Some((choice, value));
            }
        }
    }
    found.expect("dropping everything is consistent")
}

/// Every consistent relaxation, in tie order.
///
/// # Panics
/// If the sheet has more than [`MOST_ENUMERATED`] items.
pub fn every_consistent(sheet: &Sheet) -> Vec<Decisions> {
    assert!(
        sheet.items() <= MOST_ENUMERATED,
        "too many items to look at every choice"
    );
    (0..1u32 << sheet.items())
        .map(|number| choice(sheet, number))
        .filter(|choice| is_consistent(sheet, choice))
        .collect()
}

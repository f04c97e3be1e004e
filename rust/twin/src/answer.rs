//! What an answer of the search owes: "searching for the best relaxation" within a tolerance.

use crate::best::{MOST_ENUMERATED, best};
use crate::decisions::{Decision, Decisions};
use crate::relaxation::{is_consistent, value};
use crate::sheet::Sheet;

/// 11: "tolerance above 959,904", "the largest possible value".
pub const MOST_TOLERANCE: u32 = 959_904;

/// An answer of the search.
#[derive(Clone, Debug, PartialEq, Eq)]
pub struct Answer {
    pub decisions: Decisions,
    pub value: u32,
    pub ceiling: u32,
}

/// What is wrong with an answer.
#[derive(Clone, Copy, Debug, PartialEq, Eq)]
pub enum Fault {
    /// an item is left open, or an entry past the counts is decided
    NotDecided,
    /// what it keeps is no consistent relaxation
    NotConsistent,
    /// its value is not the sum of the kept weights
    WrongValue,
    /// a consistent relaxation has a value above its ceiling
    CeilingTooLow,
    /// its ceiling is more than the tolerance above its value
    CeilingTooHigh,
    /// at tolerance 0: another relaxation of the greatest value comes first by the tie rule
    NotFirstOfBest,
}

/// Whether the answer is a consistent relaxation with its value, under a ceiling that no
/// consistent relaxation exceeds and that is at most the tolerance above the value; at tolerance
/// 0 the best by the tie rule.
///
/// A sheet with more than [`MOST_ENUMERATED`] items is compared with the relaxations that differ
/// from the answer in one or two items, in place of all.
pub fn check_answer(sheet: &Sheet, tolerance: u32, answer: &Answer) -> Result<(), Fault> {
    let decisions = &answer.decisions;
    let undecided = decisions.refuse_undecided(sheet).is_err();
    if undecided || decisions.refuse_past_counts(sheet).is_err() {
        return Err(Fault::NotDecided);
    }
    if !is_consistent(sheet, decisions) {
        return Err(Fault::NotConsistent);
    }
    if answer.value != value(sheet, decisions) {
        return Err(Fault::WrongValue);
    }
    let (rival, greatest) = match sheet.items() {
        0..=MOST_ENUMERATED => best(sheet),
        _ => best_neighbour(sheet, decisions),
    };
    if greatest > answer.ceiling {
        return Err(Fault::CeilingTooLow);
    }
    if answer.ceiling - answer.value > tolerance {
        return Err(Fault::CeilingTooHigh);
    }
    if tolerance == 0 && rival != *decisions {
        return Err(Fault::NotFirstOfBest);
    }
    Ok(())
}

/// Whether one full decision wins over another: by value, then by the tie rule.
fn wins(sheet: &Sheet, one: &Decisions, other: &Decisions) -> bool {
    let (mine, theirs) = (value(sheet, one), value(sheet, other));
    let pairs = || one.items(sheet).into_iter().zip(other.items(sheet));
    let keeps_first = pairs()
        .find(|(a, b)| a != b)
        .is_some_and(|(a, _)| a == Decision::Kept);
    mine > theirs || (mine == theirs && keeps_first)
}

/// The consistent relaxation that wins among this one and those that differ from it in one or
/// two items.
fn best_neighbour(sheet: &Sheet, decisions: &Decisions) -> (Decisions, u32) {
    let mut leader = *decisions;
    let items = decisions.items(sheet);
    for first in 0..items.len() {
        for second in first..items.len() {
            let mut changed = items.clone();
            turn(&mut changed[first]);
            if second != first {
                turn(&mut changed[second]);
            }
            let rival = Decisions::from_items(sheet, &changed);
            if wins(sheet, &rival, &leader) && is_consistent(sheet, &rival) {
                leader = rival;
            }
        }
    }
    (leader, value(sheet, &leader))
}

/// Drops what is kept and keeps what is dropped.
fn turn(decision: &mut Decision) {
    *decision = if *decision == Decision::Kept {
        Decision::Dropped
    } else {
        Decision::Kept
    };
}

//! What a relaxation is: "it keeps some subscribed options and some orderings". What a list of
//! decisions keeps is read as a relaxation here; what it leaves open counts as not kept.

use crate::decisions::{Decision, Decisions};
use crate::sheet::Sheet;

fn option_kept(decisions: &Decisions, slot: usize) -> bool {
    decisions.options[slot] == Decision::Kept
}

/// "A kept ordering needs both its options kept."
pub fn is_relaxation(sheet: &Sheet, decisions: &Decisions) -> bool {
    sheet.orderings.iter().enumerate().all(|(slot, ordering)| {
        let (before, after) = sheet.ends(ordering);
        let both = option_kept(decisions, before) && option_kept(decisions, after);
        decisions.orderings[slot] != Decision::Kept || both
    })
}

/// "Its graph has the kept options, the catalogue precedences between kept options (each X line
/// as two), and the kept orderings." For each option, the slots of those that come after it.
pub fn graph(sheet: &Sheet, decisions: &Decisions) -> Vec<Vec<usize>> {
    let mut afters = vec![Vec::new(); sheet.options.len()];
    for (before, after) in sheet.precedences() {
        if option_kept(decisions, before) && option_kept(decisions, after) {
            afters[before].push(after);
        }
    }
    for (slot, ordering) in sheet.orderings.iter().enumerate() {
        if decisions.orderings[slot] == Decision::Kept {
            let (before, after) = sheet.ends(ordering);
            afters[before].push(after);
        }
    }
    afters
}

/// How far a search from some option has come.
#[derive(Clone, Copy, PartialEq)]
enum Visit {
    New,
    Under,
    Done,
}

/// Whether a cycle can be reached from this option, by going down and meeting one's own path.
fn reaches_cycle(graph: &[Vec<usize>], visits: &mut [Visit], slot: usize) -> bool {
    match visits[slot] {
        Visit::Under => true,
        Visit::Done => false,
        Visit::New => {
            visits[slot] = Visit::Under;
            let found = graph[slot]
                .iter()
                .any(|&next| reaches_cycle(graph, visits, next));
            visits[slot] = Visit::Done;
            found
        }
    }
}

/// "It is consistent if that graph has no cycle." Asks too that it is a relaxation.
pub fn is_consistent(sheet: &Sheet, decisions: &Decisions) -> bool {
    if !is_relaxation(sheet, decisions) {
        return false;
    }
    let graph = graph(sheet, decisions);
    let mut visits = vec![Visit::New; graph.len()];
    !(0..graph.len()).any(|slot| reaches_cycle(&graph, &mut visits, slot))
}

/// "Its value is the sum of the kept weights."
pub fn value(sheet: &Sheet, decisions: &Decisions) -> u32 {
    let mut sum = 0;
    for (slot, option) in sheet.options.iter().enumerate() {
        if option_kept(decisions, slot) {
            sum += u32::from(option.weight);
        }
    }
    for (slot, ordering) in sheet.orderings.iter().enumerate() {
        if decisions.orderings[slot] == Decision::Kept {
            sum += u32::from(ordering.weight);
        }
    }
    sum
}

//! The sequence of a chosen relaxation.

use crate::decisions::{Decision, Decisions};
use crate::refused::Refused;
use crate::relaxation::{graph, is_consistent};
use crate::sheet::Sheet;

/// Refused as 14 or 15 ("a full decision that is no consistent relaxation"), else the catalogue
/// number at each place; "places past the last kept option hold 0".
pub fn sequence(sheet: &Sheet, decisions: &Decisions) -> Result<[u8; Sheet::OPTIONS], Refused> {
    decisions.refuse_past_counts(sheet)?;
    decisions.refuse_undecided(sheet)?;
    Refused::nowhere(15).when(!is_consistent(sheet, decisions))?;
    let graph = graph(sheet, decisions);
    let mut waiting: Vec<usize> = (0..sheet.options.len())
        .filter(|&slot| decisions.options[slot] == Decision::Kept)
        .collect();
    let mut places = [0; Sheet::OPTIONS];
    for place in places.iter_mut().take(waiting.len()) {
        let next = smallest_free(sheet, &graph, &waiting);
        *place = sheet.options[next].number;
        waiting.retain(|&slot| slot != next);
    }
    Ok(places)
}

/// "The smallest catalogue number not yet placed whose predecessors are all placed."
fn smallest_free(sheet: &Sheet, graph: &[Vec<usize>], waiting: &[usize]) -> usize {
    let free = |slot: usize| waiting.iter().all(|&other| !graph[other].contains(&slot));
    let candidates = waiting.iter().copied().filter(|&slot| free(slot));
    candidates
        .min_by_key(|&slot| sheet.options[slot].number)
        .expect("a graph without a cycle has an option without predecessors")
}

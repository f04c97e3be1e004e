//! Which open item is taken up next.

use super::board::Board;
use super::charge::open_items;
use crate::node::Node;
use crate::problem::{Problem, members};

/// The first of the greatest.
fn greatest(scored: impl Iterator<Item = (usize, u32)>) -> Option<usize> {
    let mut best: Option<(usize, u32)> = None;
    for (item, score) in scored {
        if best.is_none_or(|(_, most)| score > most) {
            best = Some((item, score));
        }
    }
    best.map(|(item, _)| item)
}

/// For the dive: the open item that costs most to drop.
pub fn heaviest(p: &Problem, node: &Node, board: &Board) -> Option<usize> {
    greatest(open_items(p, node).map(|x| (x, board.held_by(x))))
}

/// For the answer: the first open item in slot order.
pub fn in_order(p: &Problem, node: &Node) -> Option<usize> {
    open_items(p, node).next()
}

struct Counts {
    starts: [u32; 32],
    stops: [u32; 32],
}

fn counted(p: &Problem, node: &Node) -> Counts {
    let mut counts = Counts {
        starts: [0; 32],
        stops: [0; 32],
    };
    for u in members(node.open_orderings(p)) {
        let (a, b) = p.ends(u);
        counts.starts[a] += 1;
        counts.stops[b] += 1;
    }
    counts
}

fn beside(row: u32, open: u32, counts: &[u32; 32]) -> u32 {
    let orderings: u32 = members(u64::from(row)).map(|i| counts[i]).sum();
    (row & open).count_ones() + orderings
}

/// For the value: options by three times their clashes and the smaller of their sides, then orderings by the smaller of theirs.
pub fn by_sides(p: &Problem, node: &Node) -> Option<usize> {
    let after = node.transposed(p);
    let counts = counted(p, node);
    let open = node.open_options(p);
    let option = |i: usize| {
        let (out, into) = (node.known[i], after[i]);
        let sides = beside(out, open, &counts.starts).min(beside(into, open, &counts.stops));
        (i, 3 * (out & into & open).count_ones() + sides)
    };
    let ordering = |u: usize| {
        let (a, b) = p.ends(u);
        let out = counts.starts[b] + beside(node.known[b], 0, &counts.starts);
        let into = counts.stops[a] + beside(after[a], 0, &counts.stops);
        (32 + u, out.min(into))
    };
    greatest(members(u64::from(open)).map(option))
        .or_else(|| greatest(members(node.open_orderings(p)).map(ordering)))
}

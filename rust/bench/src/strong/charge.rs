//! Charged conflicts: whatever is kept, some member of each closed chain is dropped, and its consequences with it.

use super::board::Board;
use super::chain::{Chain, Finder, ends};
use super::settle::Sides;
use crate::node::Node;
use crate::problem::{Problem, members};

/// The lengths of chains that are looked for, one after another.
const LENGTHS: [usize; 3] = [2, 3, 60];

/// The board with conflicts charged until `enough` is charged or none is found.
pub fn charged(p: &Problem, node: &Node, after: &[u32; 32], enough: u32) -> Board {
    let mut board = Board::whole(p, node);
    let finder = Finder {
        problem: p,
        node,
        after,
    };
    let sides = Sides::of(p, node, after);
    let between: Vec<usize> = open_items(p, node)
        .filter(|&x| !sides.is_loose(x))
        .collect();
    for most in LENGTHS {
        for &x in &between {
            charge_through(&finder, &mut board, x, most, enough);
            if board.charged >= enough {
                return board;
            }
        }
    }
    board
}

/// The open options, then the open orderings.
pub fn open_items(p: &Problem, node: &Node) -> impl Iterator<Item = usize> {
    let options = members(u64::from(node.open_options(p)));
    options.chain(members(node.open_orderings(p)).map(|u| 32 + u))
}

/// Charges chains through item x while there are any.
fn charge_through(finder: &Finder, board: &mut Board, x: usize, most: usize, enough: u32) {
    while board.held_by(x) > 0 && board.charged < enough {
        let Some(chain) = finder.find(board, x, most) else {
            return;
        };
        if !charge(finder, board, &chain) {
            return;
        }
    }
}

/// Whether item x comes before item y if both are kept.
fn linked(finder: &Finder, x: usize, y: usize) -> bool {
    let (_, end) = ends(finder.problem, x);
    let (begin, _) = ends(finder.problem, y);
    finder.node.known[end] >> begin & 1 == 1 || (x >= 32 && y >= 32 && end == begin)
}

fn closed(finder: &Finder, chain: &Chain) -> bool {
    let next = chain.items().skip(1).chain(chain.items().take(1));
    chain.items().zip(next).all(|(x, y)| linked(finder, x, y))
}

/// Takes the least that a member's consequences hold from the consequences of each; false where the chain is none.
fn charge(finder: &Finder, board: &mut Board, chain: &Chain) -> bool {
    let least = chain.items().map(|x| board.held_by(x)).min().unwrap_or(0);
    if least == 0 || !closed(finder, chain) {
        return false;
    }
    let mut taken = [0; 64];
    for u in chain.items().filter(|&x| x >= 32).map(|x| x - 32) {
        board.take_ordering(finder.problem, u, least);
        taken[u] = least;
    }
    for i in chain.items().filter(|&x| x < 32) {
        take_consequences(finder.problem, board, i, least, &mut taken);
    }
    board.charged += least;
    true
}

/// Own weight first, then the orderings; what others took of them counts.
fn take_consequences(p: &Problem, board: &mut Board, i: usize, least: u32, taken: &mut [u32; 64]) {
    let shared: u32 = members(p.touching[i]).map(|u| taken[u]).sum();
    let mut need = least.saturating_sub(shared);
    let own = need.min(board.left_options[i]);
    board.take_option(i, own);
    need -= own;
    for u in members(p.touching[i]) {
        let more = need.min(board.left_orderings[u]);
        if more > 0 {
            board.take_ordering(p, u, more);
            taken[u] += more;
            need -= more;
        }
    }
}

//! A first value by one dive, the best value by any order, and then the tie rule's relaxation in slot order.

use super::board::Board;
use super::charge::{charged, open_items};
use super::pick::{by_sides, heaviest, in_order};
use super::settle::settle;
use crate::node::Node;
use crate::problem::{Best, Problem};

type Pick = fn(&Problem, &Node) -> Option<usize>;

struct Sofar {
    /// what a relaxation must be worth to count
    goal: u32,
    /// a relaxation worth this ends the pass
    stop: u32,
    best: Best,
    nodes: u64,
}

/// The tie rule's best, and how many nodes both passes took.
pub fn best(p: &Problem) -> (Best, u64) {
    let value = pass(p, by_sides, dive(p), u32::MAX);
    let answer = pass(p, in_order, value.best.value, value.best.value);
    (answer.best, value.nodes + answer.nodes)
}

fn pass(p: &Problem, pick: Pick, goal: u32, stop: u32) -> Sofar {
    let mut sofar = Sofar {
        goal,
        stop,
        best: Best::default(),
        nodes: 0,
    };
    branch(p, pick, Node::open(p), &mut sofar);
    sofar
}

fn keep(p: &Problem, node: &mut Node, item: usize) {
    if item < 32 {
        node.keep_option(p, item);
    } else {
        node.keep_ordering(p, item - 32);
    }
}

fn drop(p: &Problem, node: &mut Node, item: usize) {
    if item < 32 {
        node.drop_option(p, item);
    } else {
        node.drop_ordering(p, item - 32);
    }
}

/// The worth of one relaxation: the item that costs most to drop is kept wherever that is consistent.
fn dive(p: &Problem) -> u32 {
    let mut node = Node::open(p);
    loop {
        settle(p, &mut node);
        let board = charged(p, &node, &node.transposed(p), u32::MAX);
        let Some(item) = heaviest(p, &node, &board) else {
            return node.worth;
        };
        let mut kept = node;
        keep(p, &mut kept, item);
        settle(p, &mut kept);
        if kept.contradiction {
            drop(p, &mut node, item);
        } else {
            node = kept;
        }
    }
}

/// Settles the node, and keeps what cannot be dropped if the goal is to be reached; false where it cannot be.
fn reduced(p: &Problem, node: &mut Node, goal: u32) -> bool {
    loop {
        settle(p, node);
        if node.contradiction || p.whole - node.lost < goal {
            return false;
        }
        let enough = p.whole - node.lost - goal + 1;
        let board = charged(p, node, &node.transposed(p), enough);
        if board.charged >= enough {
            return false;
        }
        if !keep_needed(p, node, &board, enough - board.charged) {
            return !node.contradiction;
        }
    }
}

/// Keeps every open item whose consequences hold what is needed; false where there is none.
fn keep_needed(p: &Problem, node: &mut Node, board: &Board, need: u32) -> bool {
    let now = *node;
    for item in open_items(p, &now).filter(|&x| board.held_by(x) >= need) {
        keep(p, node, item);
    }
    node.kept != now.kept || node.kept_orderings != now.kept_orderings
}

fn branch(p: &Problem, pick: Pick, mut node: Node, sofar: &mut Sofar) {
    sofar.nodes += 1;
    if !reduced(p, &mut node, sofar.goal) {
        return;
    }
    let Some(item) = pick(p, &node) else {
        sofar.best = node.leaf();
        sofar.goal = node.worth + 1;
        return;
    };
    let (mut kept, mut dropped) = (node, node);
    keep(p, &mut kept, item);
    branch(p, pick, kept, sofar);
    if sofar.goal <= sofar.stop {
        drop(p, &mut dropped, item);
        branch(p, pick, dropped, sofar);
    }
}

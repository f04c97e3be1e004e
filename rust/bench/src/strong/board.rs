//! What the open items of a node still hold.

use crate::node::Node;
use crate::problem::{Problem, members};

/// What is left of each open item's weight, what each option's consequences hold together, and the sum charged so far.
pub struct Board {
    pub left_options: [u32; 32],
    pub left_orderings: [u32; 64],
    pub held: [u32; 32],
    /// row a has b if an open ordering of a before b still holds something
    pub soft: [u32; 32],
    /// the open options whose consequences still hold something
    pub positive: u32,
    pub charged: u32,
}

impl Board {
    /// Nothing charged.
    pub fn whole(p: &Problem, node: &Node) -> Board {
        let mut board = Board {
            left_options: [0; 32],
            left_orderings: [0; 64],
            held: [0; 32],
            soft: [0; 32],
            positive: 0,
            charged: 0,
        };
        for i in members(u64::from(node.open_options(p))) {
            board.left_options[i] = p.weights[i];
            board.held[i] = p.weights[i];
        }
        board.add_orderings(p, node);
        for i in members(u64::from(node.open_options(p))) {
            if board.held[i] > 0 {
                board.positive |= 1 << i;
            }
        }
        board
    }

    fn add_orderings(&mut self, p: &Problem, node: &Node) {
        for u in members(node.open_orderings(p)) {
            let (a, b) = p.ends(u);
            let weight = p.ordering_weights[u];
            self.left_orderings[u] = weight;
            self.held[a] += weight;
            self.held[b] += weight;
            if weight > 0 {
                self.soft[a] |= 1 << b;
            }
        }
    }

    /// What the item's consequences hold.
    pub fn held_by(&self, item: usize) -> u32 {
        if item < 32 {
            self.held[item]
        } else {
            self.left_orderings[item - 32]
        }
    }

    fn lower(&mut self, i: usize, taken: u32) {
        self.held[i] -= taken;
        if self.held[i] == 0 {
            self.positive &= !(1 << i);
        }
    }

    pub fn take_option(&mut self, i: usize, taken: u32) {
        self.left_options[i] -= taken;
        self.lower(i, taken);
    }

    pub fn take_ordering(&mut self, p: &Problem, u: usize, taken: u32) {
        let (a, b) = p.ends(u);
        self.left_orderings[u] -= taken;
        self.lower(a, taken);
        self.lower(b, taken);
        if self.left_orderings[u] == 0 {
            self.soft[a] &= !(1 << b);
        }
    }
}

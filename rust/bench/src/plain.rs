//! The plain branch and bound: slot order, keep first, cut by the weight that is dropped.

use crate::node::Node;
use crate::problem::{Best, Problem};

struct Sofar {
    /// what a relaxation must be worth to count
    goal: u32,
    best: Best,
    nodes: u64,
}

/// The tie rule's best, and how many nodes it took.
pub fn best(p: &Problem) -> (Best, u64) {
    let mut sofar = Sofar {
        goal: 0,
        best: Best::default(),
        nodes: 0,
    };
    branch(p, Node::open(p), &mut sofar);
    (sofar.best, sofar.nodes)
}

fn branch(p: &Problem, mut node: Node, sofar: &mut Sofar) {
    sofar.nodes += 1;
    node.force(p);
    if node.contradiction || p.whole - node.lost < sofar.goal {
        return;
    }
    let options = node.open_options(p);
    let orderings = node.open_orderings(p);
    if options | orderings as u32 | (orderings >> 32) as u32 == 0 {
        sofar.best = node.leaf();
        sofar.goal = node.worth + 1;
        return;
    }
    let (mut keep, mut drop) = (node, node);
    if options != 0 {
        let i = options.trailing_zeros() as usize;
        keep.keep_option(p, i);
        drop.drop_option(p, i);
    } else {
        let u = orderings.trailing_zeros() as usize;
        keep.keep_ordering(p, u);
        drop.drop_ordering(p, u);
    }
    branch(p, keep, sofar);
    branch(p, drop, sofar);
}

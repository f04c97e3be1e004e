//! Loose items are kept: no open item lies on one of their sides, so nothing is lost by them.

use super::chain::ends;
use crate::node::Node;
use crate::problem::{Problem, members};

/// What is open on the sides of an item.
pub struct Sides<'a> {
    problem: &'a Problem,
    known: &'a [u32; 32],
    after: &'a [u32; 32],
    options: u32,
    firsts: u32,
    seconds: u32,
}

impl<'a> Sides<'a> {
    pub fn of(problem: &'a Problem, node: &'a Node, after: &'a [u32; 32]) -> Sides<'a> {
        let (mut firsts, mut seconds) = (0, 0);
        for u in members(node.open_orderings(problem)) {
            let (a, b) = problem.ends(u);
            firsts |= 1 << a;
            seconds |= 1 << b;
        }
        Sides {
            problem,
            known: &node.known,
            after,
            options: node.open_options(problem),
            firsts,
            seconds,
        }
    }

    /// Nothing open lies after the item, or nothing open lies before it.
    pub fn is_loose(&self, x: usize) -> bool {
        let (begin, end) = ends(self.problem, x);
        let own = u32::from(x >= 32);
        let later = self.known[end] & (self.options | self.firsts) | own << end & self.firsts;
        let earlier =
            self.after[begin] & (self.options | self.seconds) | own << begin & self.seconds;
        later == 0 || earlier == 0
    }
}

/// Forced decisions and loose items, until nothing more is decided.
pub fn settle(p: &Problem, node: &mut Node) {
    loop {
        node.force(p);
        if node.contradiction || !keep_loose(p, node) {
            return;
        }
    }
}

/// Keeps every loose option, and every loose ordering between kept options; false where there was none.
fn keep_loose(p: &Problem, node: &mut Node) -> bool {
    let now = *node;
    let after = now.transposed(p);
    let sides = Sides::of(p, &now, &after);
    for i in members(u64::from(now.open_options(p))) {
        if sides.is_loose(i) {
            node.keep_option(p, i);
        }
    }
    for u in members(now.open_orderings(p)) {
        let (a, b) = p.ends(u);
        if now.kept >> a & now.kept >> b & 1 == 1 && sides.is_loose(32 + u) {
            node.keep_ordering(p, u);
        }
    }
    node.kept != now.kept || node.kept_orderings != now.kept_orderings
}

//! A half-decided sheet and its forced decisions.

use crate::problem::{Best, Problem, first, members};

/// What is decided, what is known before what, K and D.
#[derive(Clone, Copy)]
pub struct Node {
    pub kept: u32,
    pub dropped: u32,
    pub kept_orderings: u64,
    pub dropped_orderings: u64,
    pub known: [u32; 32],
    pub worth: u32,
    pub lost: u32,
    pub contradiction: bool,
}

impl Node {
    /// Nothing decided.
    pub fn open(p: &Problem) -> Node {
        Node {
            kept: 0,
            dropped: 0,
            kept_orderings: 0,
            dropped_orderings: 0,
            known: p.before,
            worth: 0,
            lost: 0,
            contradiction: false,
        }
    }

    pub fn open_options(&self, p: &Problem) -> u32 {
        first(p.option_count) as u32 & !(self.kept | self.dropped)
    }

    pub fn open_orderings(&self, p: &Problem) -> u64 {
        first(p.ordering_count) & !(self.kept_orderings | self.dropped_orderings)
    }

    pub fn keep_option(&mut self, p: &Problem, i: usize) {
        let bit = 1 << i;
        if self.dropped & bit != 0 {
            self.contradiction = true;
        } else if self.kept & bit == 0 {
            self.kept |= bit;
            self.worth += p.weights[i];
        }
    }

    pub fn drop_option(&mut self, p: &Problem, i: usize) {
        let bit = 1 << i;
        if self.kept & bit != 0 {
            self.contradiction = true;
        } else if self.dropped & bit == 0 {
            self.dropped |= bit;
            self.lost += p.weights[i];
        }
        for u in members(p.touching[i]) {
            self.drop_ordering(p, u);
        }
    }

    pub fn keep_ordering(&mut self, p: &Problem, u: usize) {
        let bit = 1 << u;
        if self.dropped_orderings & bit != 0 {
            self.contradiction = true;
        } else if self.kept_orderings & bit == 0 {
            self.kept_orderings |= bit;
            self.worth += p.ordering_weights[u];
        }
        let (a, b) = p.ends(u);
        self.keep_option(p, a);
        self.keep_option(p, b);
        self.known[a] |= 1 << b;
    }

    pub fn drop_ordering(&mut self, p: &Problem, u: usize) {
        let bit = 1 << u;
        if self.kept_orderings & bit != 0 {
            self.contradiction = true;
        } else if self.dropped_orderings & bit == 0 {
            self.dropped_orderings |= bit;
            self.lost += p.ordering_weights[u];
        }
    }

    /// Known before, joined through every kept option.
    fn join(&mut self, p: &Problem) {
        for middle in members(u64::from(self.kept)) {
            let row = self.known[middle];
            for known in &mut self.known[..p.option_count] {
                if *known >> middle & 1 == 1 {
                    *known |= row;
                }
            }
        }
    }

    /// The forced decisions. Kept options follow from kept orderings at once, so one round is enough.
    pub fn force(&mut self, p: &Problem) {
        self.join(p);
        for i in 0..p.option_count {
            if self.known[i] >> i & 1 == 1 && self.dropped >> i & 1 == 0 {
                self.drop_option(p, i);
            }
        }
        for u in members(self.open_orderings(p)) {
            let (a, b) = p.ends(u);
            if self.known[b] >> a & 1 == 1 {
                self.drop_ordering(p, u);
            }
        }
    }

    /// What is known before each option that is not dropped.
    pub fn transposed(&self, p: &Problem) -> [u32; 32] {
        let mut after = [0; 32];
        let standing = first(p.option_count) & !u64::from(self.dropped);
        for i in members(standing) {
            for j in members(u64::from(self.known[i])) {
                after[j] |= 1 << i;
            }
        }
        after
    }

    /// Every item decided: the relaxation and its value.
    pub fn leaf(&self) -> Best {
        Best {
            value: self.worth,
            kept: self.kept,
            kept_orderings: self.kept_orderings,
        }
    }
}

//! Closed chains of open items, found breadth first. Items are numbered from 0 for options and from 32 for orderings.

use super::board::Board;
use crate::node::Node;
use crate::problem::{Problem, members};

/// The levels of a walk have room for this many.
const LEVELS: usize = 64;

/// The options of each level, where its orderings end, and where the next one's may begin.
struct Levels {
    options: [u32; LEVELS],
    seconds: [u32; LEVELS],
    starts: [u32; LEVELS],
}

/// A closed chain.
pub struct Chain {
    len: usize,
    items: [u8; LEVELS],
}

impl Chain {
    pub fn items(&self) -> impl Iterator<Item = usize> + '_ {
        self.items[..self.len].iter().map(|x| usize::from(*x))
    }
}

/// The option at which an item begins, and the one at which it ends.
pub fn ends(p: &Problem, item: usize) -> (usize, usize) {
    if item < 32 {
        (item, item)
    } else {
        p.ends(item - 32)
    }
}

fn joined(table: &[u32; 32], set: u32) -> u32 {
    members(u64::from(set)).fold(0, |row, i| row | table[i])
}

/// What the finder looks at.
pub struct Finder<'a> {
    pub problem: &'a Problem,
    pub node: &'a Node,
    pub after: &'a [u32; 32],
}

impl Finder<'_> {
    /// A shortest closed chain through item x, of at most `most` items.
    pub fn find(&self, board: &Board, x: usize, most: usize) -> Option<Chain> {
        let mut levels = Levels {
            options: [0; LEVELS],
            seconds: [0; LEVELS],
            starts: [0; LEVELS],
        };
        let last = self.levels(board, x, most, &mut levels)?;
        self.walk_back(board, x, last, &levels)
    }

    /// The number of the level that closes the chain.
    fn levels(&self, board: &Board, x: usize, most: usize, levels: &mut Levels) -> Option<usize> {
        let (begin, end) = ends(self.problem, x);
        let meets = x >= 32;
        let own = u32::from(meets) << end;
        let before = self.after[begin];
        let closing = before | u32::from(meets) << begin;
        let mut reach = self.node.known[end];
        let mut met_options = u32::from(!meets) << (x % 32);
        let mut met_seconds = own;
        levels.starts[0] = reach | own;
        for l in 1..most {
            let seconds = joined(&board.soft, levels.starts[l - 1]);
            levels.options[l] = reach & board.positive & !met_options;
            levels.seconds[l] = seconds & !met_seconds;
            met_options |= levels.options[l];
            met_seconds |= seconds;
            if levels.options[l] & before | levels.seconds[l] & closing != 0 {
                return Some(l);
            }
            let level = levels.options[l] | levels.seconds[l];
            if level == 0 || l + 1 == most {
                return None;
            }
            reach = joined(&self.node.known, level);
            levels.starts[l] = reach | levels.seconds[l];
        }
        None
    }

    /// From the closing level down to the first one, at each the item that holds most.
    fn walk_back(&self, board: &Board, x: usize, last: usize, levels: &Levels) -> Option<Chain> {
        let mut items = [0; LEVELS];
        items[0] = x as u8;
        let mut item = x;
        for l in (1..=last).rev() {
            item = self.best_of_level(board, item, l, levels)?;
            items[l] = item as u8;
        }
        let len = last + 1;
        Some(Chain { len, items })
    }

    fn best_of_level(
        &self,
        board: &Board,
        next: usize,
        l: usize,
        levels: &Levels,
    ) -> Option<usize> {
        let (begin, _) = ends(self.problem, next);
        let into = self.after[begin];
        let closing = into | u32::from(next >= 32) << begin;
        let (mut item, mut most) = (None, 0);
        for i in members(u64::from(levels.options[l] & into)) {
            if board.held[i] > most {
                (item, most) = (Some(i), board.held[i]);
            }
        }
        for u in 0..self.problem.ordering_count {
            if board.left_orderings[u] > most {
                let (a, b) = self.problem.ends(u);
                if levels.starts[l - 1] >> a & 1 == 1 && levels.seconds[l] & closing & 1 << b != 0 {
                    (item, most) = (Some(32 + u), board.left_orderings[u]);
                }
            }
        }
        item
    }
}

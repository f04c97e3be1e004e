//! "Forced decisions are made until none is left": every rule is tried on everything, again and
//! again, until a whole round changes nothing.

use crate::decisions::{Decision, Decisions};
use crate::sheet::Sheet;

/// Why an item is decided; both may hold, and that is a contradiction.
#[derive(Clone, Copy, Debug, PartialEq, Eq)]
struct Item {
    kept: bool,
    dropped: bool,
}

impl Item {
    fn of(decision: Decision) -> Item {
        Item {
            kept: decision == Decision::Kept,
            dropped: decision == Decision::Dropped,
        }
    }

    fn decision(self) -> Decision {
        match self {
            Item { kept: true, .. } => Decision::Kept,
            Item { dropped: true, .. } => Decision::Dropped,
            _ => Decision::Open,
        }
    }
}

/// The decisions with the forced ones, and what is known before what.
#[derive(Clone, Debug, PartialEq, Eq)]
pub struct Forced {
    pub decisions: Decisions,
    /// `known_before[a][b]`: the option of slot a is known before that of slot b, from 0
    pub known_before: Vec<Vec<bool>>,
}

impl Forced {
    /// "Two different options clash if each is known before the other."
    pub fn clash(&self, one: usize, other: usize) -> bool {
        one != other && self.known_before[one][other] && self.known_before[other][one]
    }
}

/// What has been found so far.
struct Round<'a> {
    sheet: &'a Sheet,
    ends: Vec<(usize, usize)>,
    precedences: Vec<(usize, usize)>,
    options: Vec<Item>,
    orderings: Vec<Item>,
    known_before: Vec<Vec<bool>>,
    changed: bool,
}

/// The forced decisions, or none for a contradiction: "an item that would be both kept and
/// dropped".
pub fn forced(sheet: &Sheet, decisions: &Decisions) -> Option<Forced> {
    let count = sheet.options.len();
    let items = |given: &[Decision]| given.iter().map(|&one| Item::of(one)).collect();
    let mut round = Round {
        sheet,
        ends: sheet
            .orderings
            .iter()
            .map(|ordering| sheet.ends(ordering))
            .collect(),
        precedences: sheet.precedences(),
        options: items(&decisions.options[..count]),
        orderings: items(&decisions.orderings[..sheet.orderings.len()]),
        known_before: vec![vec![false; count]; count],
        changed: true,
    };
    while round.changed {
        round.changed = false;
        round.orderings_and_their_options();
        round.first_known();
        round.joined_known();
        round.dropped_options();
        round.dropped_orderings();
    }
    round.result()
}

impl Round<'_> {
    fn keep_option(&mut self, slot: usize) {
        self.changed |= !self.options[slot].kept;
        self.options[slot].kept = true;
    }

    fn drop_option(&mut self, slot: usize) {
        self.changed |= !self.options[slot].dropped;
        self.options[slot].dropped = true;
    }

    fn drop_ordering(&mut self, slot: usize) {
        self.changed |= !self.orderings[slot].dropped;
        self.orderings[slot].dropped = true;
    }

    fn know(&mut self, before: usize, after: usize) {
        self.changed |= !self.known_before[before][after];
        self.known_before[before][after] = true;
    }

    /// "A kept ordering keeps both its options; a dropped option drops its orderings."
    fn orderings_and_their_options(&mut self) {
        for slot in 0..self.orderings.len() {
            let (before, after) = self.ends[slot];
            if self.orderings[slot].kept {
                self.keep_option(before);
                self.keep_option(after);
            }
            if self.options[before].dropped || self.options[after].dropped {
                self.drop_ordering(slot);
            }
        }
    }

    /// "'Known before' holds the catalogue precedences between subscribed options and the kept
    /// orderings."
    fn first_known(&mut self) {
        for index in 0..self.precedences.len() {
            let (before, after) = self.precedences[index];
            self.know(before, after);
        }
        for slot in 0..self.orderings.len() {
            if self.orderings[slot].kept {
                let (before, after) = self.ends[slot];
                self.know(before, after);
            }
        }
    }

    /// "If a is known before b, b before c, and b is kept, then a is known before c."
    fn joined_known(&mut self) {
        let count = self.options.len();
        for b in (0..count)
            .filter(|&b| self.options[b].kept)
            .collect::<Vec<_>>()
        {
            for a in 0..count {
                for c in 0..count {
                    if self.known_before[a][b] && self.known_before[b][c] {
                        self.know(a, c);
                    }
                }
            }
        }
    }

    /// "An option known before itself, or both before and after a kept option, is dropped."
    fn dropped_options(&mut self) {
        let count = self.options.len();
        for slot in 0..count {
            let round_a_kept_one = (0..count).any(|other| {
                self.options[other].kept
                    && self.known_before[slot][other]
                    && self.known_before[other][slot]
            });
            if self.known_before[slot][slot] || round_a_kept_one {
                self.drop_option(slot);
            }
        }
    }

    /// "An ordering a before b is dropped if b is known before a."
    fn dropped_orderings(&mut self) {
        for slot in 0..self.orderings.len() {
            let (a, b) = self.ends[slot];
            if self.known_before[b][a] {
                self.drop_ordering(slot);
            }
        }
    }

    fn result(self) -> Option<Forced> {
        let mut items = self.options.iter().chain(&self.orderings);
        if items.any(|item| item.kept && item.dropped) {
            return None;
        }
        let decided: Vec<Decision> = self
            .options
            .iter()
            .chain(&self.orderings)
            .map(|item| item.decision())
            .collect();
        let decisions = Decisions::from_items(self.sheet, &decided);
        Some(Forced {
            decisions,
            known_before: self.known_before,
        })
    }
}

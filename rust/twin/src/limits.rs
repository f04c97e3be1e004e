//! The limits of a half-decided sheet, by the table of formulas, "with all sums over distinct
//! items".

use crate::decisions::{Decision, Decisions};
use crate::forced::{Forced, forced};
use crate::refused::Refused;
use crate::sheet::Sheet;

/// The four limits of one item; "an item that is decided, by choice or by force, has four zeros".
#[derive(Clone, Copy, Debug, Default, PartialEq, Eq)]
pub struct ItemLimits {
    pub kept_lower: u32,
    pub kept_upper: u32,
    pub dropped_lower: u32,
    pub dropped_upper: u32,
}

/// Forced decisions and limits. Of a contradiction the "decisions are then all open and its
/// limits all zero".
#[derive(Clone, Debug, PartialEq, Eq)]
pub struct Limits {
    pub contradiction: bool,
    pub decisions: Decisions,
    pub lower: u32,
    pub upper: u32,
    pub options: [ItemLimits; Sheet::OPTIONS],
    pub orderings: [ItemLimits; Sheet::ORDERINGS],
}

/// Refused as 14 if a decision stands past the counts, else the limits.
pub fn limits(sheet: &Sheet, decisions: &Decisions) -> Result<Limits, Refused> {
    decisions.refuse_past_counts(sheet)?;
    let mut result = Limits {
        contradiction: true,
        decisions: Decisions::open(),
        lower: 0,
        upper: 0,
        options: [ItemLimits::default(); Sheet::OPTIONS],
        orderings: [ItemLimits::default(); Sheet::ORDERINGS],
    };
    let Some(forced) = forced(sheet, decisions) else {
        return Ok(result);
    };
    let sums = Sums::new(sheet, forced);
    result.contradiction = false;
    result.decisions = sums.forced.decisions;
    result.lower = sums.kept();
    result.upper = sums.not_dropped();
    for slot in 0..sheet.options.len() {
        result.options[slot] = sums.option_limits(slot);
    }
    for slot in 0..sheet.orderings.len() {
        result.orderings[slot] = sums.ordering_limits(slot);
    }
    Ok(result)
}

/// The sums that the formulas name.
struct Sums<'a> {
    sheet: &'a Sheet,
    ends: Vec<(usize, usize)>,
    forced: Forced,
}

impl Sums<'_> {
    fn new(sheet: &Sheet, forced: Forced) -> Sums<'_> {
        let ends = sheet
            .orderings
            .iter()
            .map(|ordering| sheet.ends(ordering))
            .collect();
        Sums {
            sheet,
            ends,
            forced,
        }
    }

    fn option_weight(&self, slot: usize) -> u32 {
        u32::from(self.sheet.options[slot].weight)
    }

    fn ordering_weight(&self, slot: usize) -> u32 {
        u32::from(self.sheet.orderings[slot].weight)
    }

    fn option_open(&self, slot: usize) -> bool {
        self.forced.decisions.options[slot] == Decision::Open
    }

    fn ordering_open(&self, slot: usize) -> bool {
        self.forced.decisions.orderings[slot] == Decision::Open
    }

    /// The weight of the items that are so decided.
    fn decided(&self, wanted: Decision) -> u32 {
        let decisions = &self.forced.decisions;
        let options = (0..self.sheet.options.len())
            .filter(|&slot| decisions.options[slot] == wanted)
            .map(|slot| self.option_weight(slot));
        let orderings = (0..self.sheet.orderings.len())
            .filter(|&slot| decisions.orderings[slot] == wanted)
            .map(|slot| self.ordering_weight(slot));
        options.chain(orderings).sum()
    }

    /// K: the weight "of what is kept".
    fn kept(&self) -> u32 {
        self.decided(Decision::Kept)
    }

    /// M − D: the weight of everything without that "of what is dropped".
    fn not_dropped(&self) -> u32 {
        self.sheet.weight_of_everything() - self.decided(Decision::Dropped)
    }

    /// The weight of the open orderings that touch one of the options so marked, each once.
    fn touching(&self, marked: &[bool]) -> u32 {
        (0..self.sheet.orderings.len())
            .filter(|&slot| self.ordering_open(slot))
            .filter(|&slot| marked[self.ends[slot].0] || marked[self.ends[slot].1])
            .map(|slot| self.ordering_weight(slot))
            .sum()
    }

    /// A, and E for two: "the weight of the open options that clash" with one of these "and of
    /// the open orderings touching one of these".
    fn clashing(&self, with: &[usize]) -> u32 {
        let marked: Vec<bool> = (0..self.sheet.options.len())
            .map(|slot| self.option_open(slot) && with.iter().any(|&i| self.forced.clash(i, slot)))
            .collect();
        let options: u32 = (0..marked.len())
            .filter(|&slot| marked[slot])
            .map(|slot| self.option_weight(slot))
            .sum();
        options + self.touching(&marked)
    }

    /// B: "the weight of i and of the open orderings touching i".
    fn lost_with(&self, option: usize) -> u32 {
        let marked: Vec<bool> = (0..self.sheet.options.len())
            .map(|slot| slot == option)
            .collect();
        self.option_weight(option) + self.touching(&marked)
    }

    fn option_limits(&self, slot: usize) -> ItemLimits {
        if !self.option_open(slot) {
            return ItemLimits::default();
        }
        ItemLimits {
            kept_lower: self.kept() + self.option_weight(slot),
            kept_upper: self.not_dropped() - self.clashing(&[slot]),
            dropped_lower: self.kept(),
            dropped_upper: self.not_dropped() - self.lost_with(slot),
        }
    }

    fn ordering_limits(&self, slot: usize) -> ItemLimits {
        if !self.ordering_open(slot) {
            return ItemLimits::default();
        }
        let (before, after) = self.ends[slot];
        let open_options: u32 = [before, after]
            .into_iter()
            .filter(|&end| self.option_open(end))
            .map(|end| self.option_weight(end))
            .sum();
        ItemLimits {
            kept_lower: self.kept() + self.ordering_weight(slot) + open_options,
            kept_upper: self.not_dropped() - self.clashing(&[before, after]),
            dropped_lower: self.kept(),
            dropped_upper: self.not_dropped() - self.ordering_weight(slot),
        }
    }
}

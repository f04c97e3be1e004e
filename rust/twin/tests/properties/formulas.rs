//! Forced decisions and limits a second time, by another way than the library's: known before as
//! paths, decisions one kind after the other, and sums over sets of items.

use crate::every::{catalogue_pairs, ordering_pairs, weights};
use std::collections::BTreeSet;
use twin::{Decision, Decisions, ItemLimits, Limits, Sheet};

/// Items are numbered from 0, options first.
type Items = BTreeSet<usize>;

/// The slots that a path from this one reaches, if all options inside the path are kept.
fn reached(from: usize, pairs: &[(usize, usize)], kept: &Items) -> Items {
    let mut found = Items::new();
    let mut edge = vec![from];
    while let Some(a) = edge.pop() {
        for &(_, b) in pairs.iter().filter(|&&(first, _)| first == a) {
            if found.insert(b) && kept.contains(&b) {
                edge.push(b);
            }
        }
    }
    found
}

struct Half<'a> {
    sheet: &'a Sheet,
    ends: Vec<(usize, usize)>,
    kept: Items,
    dropped: Items,
    after: Vec<Items>,
}

impl Half<'_> {
    fn options(&self) -> std::ops::Range<usize> {
        0..self.sheet.options.len()
    }

    fn sum(&self, items: &Items) -> u32 {
        let weights = weights(self.sheet);
        items.iter().map(|&item| weights[item]).sum()
    }

    fn mutual(&self, a: usize, b: usize) -> bool {
        self.after[a].contains(&b) && self.after[b].contains(&a)
    }

    fn open(&self) -> Items {
        let decided = |item: &usize| self.kept.contains(item) || self.dropped.contains(item);
        (0..self.sheet.items())
            .filter(|item| !decided(item))
            .collect()
    }

    /// The open items that go if these options go: the options and the orderings touching them.
    fn with_touching(&self, options: &Items) -> Items {
        let touched = |item: &usize| match item.checked_sub(self.sheet.options.len()) {
            None => options.contains(item),
            Some(slot) => {
                options.contains(&self.ends[slot].0) || options.contains(&self.ends[slot].1)
            }
        };
        self.open().into_iter().filter(touched).collect()
    }

    /// The options that clash with one of these.
    fn clashing(&self, with: &[usize]) -> Items {
        let clash = |j: &usize| with.iter().any(|&i| i != *j && self.mutual(i, *j));
        self.options().filter(clash).collect()
    }

    fn limits(&self, item: usize) -> ItemLimits {
        if !self.open().contains(&item) {
            return ItemLimits::default();
        }
        let (needs, lost) = match item.checked_sub(self.sheet.options.len()) {
            None => (vec![item], self.with_touching(&Items::from([item]))),
            Some(slot) => (
                vec![self.ends[slot].0, self.ends[slot].1],
                Items::from([item]),
            ),
        };
        let mut gained: Items = self.kept.clone();
        gained.extend(needs.iter().chain([&item]));
        let without = |gone: &Items| -> u32 {
            let stays = |item: &usize| !self.dropped.contains(item) && !gone.contains(item);
            self.sum(&(0..self.sheet.items()).filter(stays).collect())
        };
        ItemLimits {
            kept_lower: self.sum(&gained),
            kept_upper: without(&self.with_touching(&self.clashing(&needs))),
            dropped_lower: self.sum(&self.kept),
            dropped_upper: without(&lost),
        }
    }
}

/// Forced decisions, one kind after the other; none for a contradiction.
fn half<'a>(sheet: &'a Sheet, decisions: &Decisions) -> Option<Half<'a>> {
    let count = sheet.options.len();
    let items = decisions.items(sheet);
    let decided = |wanted| {
        (0..items.len())
            .filter(|&i| items[i] == wanted)
            .collect::<Items>()
    };
    let ends = ordering_pairs(sheet);
    let (mut kept, mut dropped) = (decided(Decision::Kept), decided(Decision::Dropped));
    let kept_pairs: Vec<(usize, usize)> = (0..ends.len())
        .filter(|slot| kept.contains(&(count + slot)))
        .map(|i| ends[i])
        .collect();
    kept.extend(kept_pairs.iter().flat_map(|&(a, b)| [a, b]));
    let pairs = [catalogue_pairs(sheet), kept_pairs].concat();
    let after = (0..count).map(|a| reached(a, &pairs, &kept)).collect();
    let mut half = Half {
        sheet,
        ends,
        kept,
        dropped: Items::new(),
        after,
    };
    for a in 0..count {
        if (0..count).any(|b| (a == b || half.kept.contains(&b)) && half.mutual(a, b)) {
            dropped.insert(a);
        }
    }
    for (slot, &(a, b)) in half.ends.iter().enumerate() {
        if dropped.contains(&a) || dropped.contains(&b) || half.after[b].contains(&a) {
            dropped.insert(count + slot);
        }
    }
    half.dropped = dropped;
    half.kept.is_disjoint(&half.dropped).then_some(half)
}

/// The limits of a list of decisions that is open past the counts.
pub fn limits(sheet: &Sheet, decisions: &Decisions) -> Limits {
    let mut result = Limits {
        contradiction: true,
        decisions: Decisions::open(),
        lower: 0,
        upper: 0,
        options: [ItemLimits::default(); 32],
        orderings: [ItemLimits::default(); 64],
    };
    let Some(half) = half(sheet, decisions) else {
        return result;
    };
    result.contradiction = false;
    for item in 0..sheet.items() {
        let decision = match (half.kept.contains(&item), half.dropped.contains(&item)) {
            (true, _) => Decision::Kept,
            (_, true) => Decision::Dropped,
            _ => Decision::Open,
        };
        match item.checked_sub(sheet.options.len()) {
            None => {
                result.decisions.options[item] = decision;
                result.options[item] = half.limits(item);
            }
            Some(slot) => {
                result.decisions.orderings[slot] = decision;
                result.orderings[slot] = half.limits(item);
            }
        }
    }
    result.lower = half.sum(&half.kept);
    result.upper = half.sum(
        &(0..sheet.items())
            .filter(|i| !half.dropped.contains(i))
            .collect(),
    );
    result
}

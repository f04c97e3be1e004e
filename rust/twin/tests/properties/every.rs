//! Every consistent relaxation of a small sheet, by another way than the library's: sets of bits,
//! and options taken away that nothing comes before.

use twin::{Decision, Decisions, Letter, Sheet};

/// A relaxation: bit i is set if item i is kept, options first.
#[derive(Clone, Copy, Debug, PartialEq, Eq)]
pub struct Relaxation {
    pub kept: u32,
    pub value: u32,
}

impl Relaxation {
    pub fn keeps(&self, item: usize) -> bool {
        self.kept & 1 << item != 0
    }

    /// Whether every decided item is decided as here.
    pub fn agrees(&self, decided: &[Decision]) -> bool {
        decided
            .iter()
            .enumerate()
            .all(|(item, decision)| match decision {
                Decision::Kept => self.keeps(item),
                Decision::Dropped => !self.keeps(item),
                Decision::Open => true,
            })
    }

    pub fn decisions(&self, sheet: &Sheet) -> Decisions {
        let one = |item| {
            if self.keeps(item) {
                Decision::Kept
            } else {
                Decision::Dropped
            }
        };
        let items: Vec<Decision> = (0..sheet.items()).map(one).collect();
        Decisions::from_items(sheet, &items)
    }
}

/// All pairs of slots that the catalogue puts in order.
pub fn catalogue_pairs(sheet: &Sheet) -> Vec<(usize, usize)> {
    let mut pairs = Vec::new();
    for (a, one) in sheet.options.iter().enumerate() {
        for (b, other) in sheet.options.iter().enumerate() {
            let ordered = sheet.catalogue.iter().any(|line| {
                let forward = (line.before, line.after) == (one.number, other.number);
                let backward = (line.before, line.after) == (other.number, one.number);
                forward || (line.letter == Letter::X && backward)
            });
            if ordered {
                pairs.push((a, b));
            }
        }
    }
    pairs
}

/// The slots of both ends of each ordering.
pub fn ordering_pairs(sheet: &Sheet) -> Vec<(usize, usize)> {
    let slot = |number| (0..sheet.options.len()).find(|&i| sheet.options[i].number == number);
    let pair = |one: &twin::Ordering| (slot(one.before).unwrap(), slot(one.after).unwrap());
    sheet.orderings.iter().map(pair).collect()
}

/// The weight of each item, options first.
pub fn weights(sheet: &Sheet) -> Vec<u32> {
    let mut weights: Vec<u32> = sheet
        .options
        .iter()
        .map(|one| u32::from(one.weight))
        .collect();
    weights.extend(sheet.orderings.iter().map(|one| u32::from(one.weight)));
    weights
}

/// The pairs in the graph of a relaxation, or none if it keeps an ordering without its options.
pub fn pairs_of(sheet: &Sheet, kept: u32) -> Option<Vec<(usize, usize)>> {
    let both = |&(a, b): &(usize, usize)| kept & 1 << a != 0 && kept & 1 << b != 0;
    let mut pairs: Vec<_> = catalogue_pairs(sheet).into_iter().filter(both).collect();
    for (index, pair) in ordering_pairs(sheet).into_iter().enumerate() {
        if kept & 1 << (sheet.options.len() + index) != 0 {
            if !both(&pair) {
                return None;
            }
            pairs.push(pair);
        }
    }
    Some(pairs)
}

/// Whether all options can be taken away, each when nothing left comes before it.
fn can_be_emptied(options: u32, pairs: &[(usize, usize)]) -> bool {
    let mut left = options;
    loop {
        let live = pairs
            .iter()
            .filter(|&&(a, b)| left & 1 << a != 0 && left & 1 << b != 0);
        let held = live.fold(0, |held, &(_, b)| held | 1 << b);
        if left & held == left {
            return left == 0;
        }
        left &= held;
    }
}

/// Every consistent relaxation.
pub fn consistent_relaxations(sheet: &Sheet) -> Vec<Relaxation> {
    let weights = weights(sheet);
    let options = (1u32 << sheet.options.len()) - 1;
    let mut found = Vec::new();
    for kept in 0..1u32 << sheet.items() {
        let Some(pairs) = pairs_of(sheet, kept) else {
            continue;
        };
        if can_be_emptied(kept & options, &pairs) {
            let kept_weights = (0..weights.len()).filter(|&item| kept & 1 << item != 0);
            let value = kept_weights.map(|item| weights[item]).sum();
            found.push(Relaxation { kept, value });
        }
    }
    found
}

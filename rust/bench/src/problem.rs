//! A sheet by slots, as both searches here want it.

use twin::Sheet;

/// Options and orderings by slot; rows of bits for what the catalogue says.
#[derive(Clone, Debug)]
pub struct Problem {
    pub option_count: usize,
    pub ordering_count: usize,
    pub weights: [u32; 32],
    pub ordering_weights: [u32; 64],
    pub firsts: [u8; 64],
    pub seconds: [u8; 64],
    /// the orderings that touch each option
    pub touching: [u64; 32],
    /// the options that the catalogue puts after each option
    pub before: [u32; 32],
    /// M: the weight of everything
    pub whole: u32,
}

/// What a search answers: the tie rule's best.
#[derive(Clone, Copy, Debug, Default, PartialEq, Eq)]
pub struct Best {
    pub value: u32,
    pub kept: u32,
    pub kept_orderings: u64,
}

/// The numbers of a set, from the lowest.
pub fn members(set: u64) -> impl Iterator<Item = usize> {
    let mut left = set;
    std::iter::from_fn(move || {
        let next = (left != 0).then(|| left.trailing_zeros() as usize);
        left &= left.wrapping_sub(1);
        next
    })
}

/// The set of the first `count` numbers.
pub fn first(count: usize) -> u64 {
    if count == 64 {
        u64::MAX
    } else {
        (1 << count) - 1
    }
}

impl Problem {
    pub fn of(sheet: &Sheet) -> Problem {
        let mut slots = [255u8; 256];
        for (slot, option) in sheet.options.iter().enumerate() {
            slots[usize::from(option.number)] = slot as u8;
        }
        let mut problem = Problem::of_options(sheet);
        problem.add_orderings(sheet, &slots);
        problem.add_catalogue(sheet, &slots);
        problem
    }

    fn of_options(sheet: &Sheet) -> Problem {
        let mut weights = [0; 32];
        for (weight, option) in weights.iter_mut().zip(&sheet.options) {
            *weight = u32::from(option.weight);
        }
        Problem {
            option_count: sheet.options.len(),
            ordering_count: sheet.orderings.len(),
            weights,
            ordering_weights: [0; 64],
            firsts: [0; 64],
            seconds: [0; 64],
            touching: [0; 32],
            before: [0; 32],
            whole: weights.iter().sum(),
        }
    }

    fn add_orderings(&mut self, sheet: &Sheet, slots: &[u8; 256]) {
        for (u, ordering) in sheet.orderings.iter().enumerate() {
            let a = slots[usize::from(ordering.before)];
            let b = slots[usize::from(ordering.after)];
            self.firsts[u] = a;
            self.seconds[u] = b;
            self.touching[usize::from(a)] |= 1 << u;
            self.touching[usize::from(b)] |= 1 << u;
            self.ordering_weights[u] = u32::from(ordering.weight);
            self.whole += self.ordering_weights[u];
        }
    }

    fn add_catalogue(&mut self, sheet: &Sheet, slots: &[u8; 256]) {
        for line in &sheet.catalogue {
            let a = slots[usize::from(line.before)];
            let b = slots[usize::from(line.after)];
            if a < 32 && b < 32 {
                self.before[usize::from(a)] |= 1 << b;
                if line.letter == twin::Letter::X {
                    self.before[usize::from(b)] |= 1 << a;
                }
            }
        }
    }

    /// The options that ordering u puts before and after each other.
    pub fn ends(&self, u: usize) -> (usize, usize) {
        (usize::from(self.firsts[u]), usize::from(self.seconds[u]))
    }
}

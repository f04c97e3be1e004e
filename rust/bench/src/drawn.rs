//! Sheets drawn as source document 001 draws them, section 6.1: catalogues ⟨options, pairs, types⟩ and subscriptions ⟨options, orderings, weight⟩.

use crate::random::Random;
use twin::{CatalogueLine, Letter, Ordering, Sheet, Subscription};

/// The ways in which a catalogue's pair may stand.
#[derive(Clone, Copy)]
pub enum Types {
    /// before or after
    Precedences,
    /// before, after or excluded
    Mixed,
    /// excluded
    Exclusions,
}

/// What a sheet is drawn by.
#[derive(Clone, Copy)]
pub struct Drawn {
    /// the options of the catalogue
    pub catalogue: usize,
    /// its pairs
    pub pairs: usize,
    pub types: Types,
    /// the pairs are drawn among the subscribed options only
    pub among_subscribed: bool,
    pub options: usize,
    pub orderings: usize,
    /// an ordering's opposite may be drawn too
    pub both_ways: bool,
    /// weights are drawn from 1 to this
    pub weight: u16,
}

impl Drawn {
    pub fn sheet(&self, random: &mut Random) -> Sheet {
        let numbers: Vec<u8> = random
            .sample(self.catalogue, self.options)
            .iter()
            .map(|i| *i as u8 + 1)
            .collect();
        let all: Vec<u8> = (0..self.catalogue).map(|i| i as u8 + 1).collect();
        let base = if self.among_subscribed {
            &numbers
        } else {
            &all
        };
        let catalogue = self.lines(random, base);
        let options = numbers
            .iter()
            .map(|&number| Subscription {
                number,
                weight: random.weight(self.weight),
            })
            .collect();
        let orderings = self.asked(random, &numbers);
        Sheet {
            catalogue,
            options,
            orderings,
        }
    }

    fn lines(&self, random: &mut Random, base: &[u8]) -> Vec<CatalogueLine> {
        let pairs = pairs(base);
        let chosen = random.sample(pairs.len(), self.pairs.min(pairs.len()));
        chosen
            .iter()
            .map(|&p| self.line(random, pairs[p]))
            .collect()
    }

    fn line(&self, random: &mut Random, (a, b): (u8, u8)) -> CatalogueLine {
        let way = match self.types {
            Types::Precedences => random.below(2),
            Types::Mixed => random.below(3),
            Types::Exclusions => 2,
        };
        let letter = if way == 2 { Letter::X } else { Letter::C };
        let (before, after) = if way == 1 { (b, a) } else { (a, b) };
        CatalogueLine {
            letter,
            before,
            after,
        }
    }

    fn asked(&self, random: &mut Random, numbers: &[u8]) -> Vec<Ordering> {
        let mut pairs = pairs(numbers);
        if self.both_ways {
            let back: Vec<(u8, u8)> = pairs.iter().map(|&(a, b)| (b, a)).collect();
            pairs.extend(back);
        }
        let chosen = random.sample(pairs.len(), self.orderings);
        let mut asked = Vec::new();
        for p in chosen {
            let turned = !self.both_ways && random.below(2) == 1;
            let (a, b) = pairs[p];
            let (before, after) = if turned { (b, a) } else { (a, b) };
            let weight = random.weight(self.weight);
            asked.push(Ordering {
                before,
                after,
                weight,
            });
        }
        asked
    }
}

/// Every pair once.
fn pairs(numbers: &[u8]) -> Vec<(u8, u8)> {
    let mut found = Vec::new();
    for (i, &a) in numbers.iter().enumerate() {
        found.extend(numbers[i + 1..].iter().map(|&b| (a, b)));
    }
    found
}

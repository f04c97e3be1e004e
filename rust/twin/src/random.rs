//! Sheets, decisions and records drawn from a seed. The same seed gives the same result on every
//! machine, so that a failure can be run again.

use crate::decisions::{Decision, Decisions};
use crate::record::Record;
use crate::sheet::{CatalogueLine, Letter, Ordering, Sheet, Subscription};

/// A xorshift generator.
pub struct Random(u64);

impl Random {
    /// The generator of a seed for a purpose. What is drawn for one purpose tells nothing about
    /// what is drawn from the same seed for another.
    pub fn new(purpose: &str, seed: u64) -> Random {
        let mut random = Random(0x9E37_79B9_7F4A_7C15);
        for byte in purpose.bytes().chain(seed.to_le_bytes()) {
            random.0 ^= u64::from(byte) << 32;
            random.bits();
        }
        random
    }

    /// The next 64 bits.
    pub fn bits(&mut self) -> u64 {
        self.0 ^= self.0 >> 12;
        self.0 ^= self.0 << 25;
        self.0 ^= self.0 >> 27;
        self.0.wrapping_mul(0x2545_F491_4F6C_DD1D)
    }

    /// A number below `end`, which is not 0.
    pub fn below(&mut self, end: usize) -> usize {
        (((self.bits() >> 32) * end as u64) >> 32) as usize
    }

    /// A number from `first` to `last`, both included.
    pub fn within(&mut self, first: usize, last: usize) -> usize {
        first + self.below(last - first + 1)
    }

    /// True once in so many times.
    pub fn once_in(&mut self, times: usize) -> bool {
        self.below(times) == 0
    }

    /// One of these.
    pub fn pick<T: Copy>(&mut self, from: &[T]) -> T {
        from[self.below(from.len())]
    }

    /// The first `count` of these in a random order.
    pub fn draw<T>(&mut self, mut from: Vec<T>, count: usize) -> Vec<T> {
        for index in 0..count {
            let other = self.within(index, from.len() - 1);
            from.swap(index, other);
        }
        from.truncate(count);
        from
    }
}

/// How weights are drawn: small ones make ties, large ones make long lines.
#[derive(Clone, Copy)]
pub(crate) enum Weights {
    Zero,
    One,
    Few,
    Any,
}

pub(crate) const ALL_WEIGHTS: [Weights; 4] =
    [Weights::Zero, Weights::One, Weights::Few, Weights::Any];

fn weight(random: &mut Random, weights: Weights) -> u16 {
    let drawn = match weights {
        Weights::Zero => 0,
        Weights::One => 1,
        Weights::Few => random.below(5),
        Weights::Any => random.below(10_000),
    };
    drawn as u16
}

/// Some option lines with different numbers, in random order.
pub(crate) fn options(random: &mut Random, count: usize, weights: Weights) -> Vec<Subscription> {
    let largest: u8 = if count < 10 && random.once_in(2) {
        9
    } else {
        250
    };
    let numbers = random.draw((1..=largest).collect(), count);
    numbers
        .into_iter()
        .map(|number| Subscription {
            number,
            weight: weight(random, weights),
        })
        .collect()
}

/// Up to `count` ordering lines between these options, as many as there are pairs.
pub(crate) fn orderings(
    random: &mut Random,
    options: &[Subscription],
    count: usize,
    weights: Weights,
) -> Vec<Ordering> {
    let mut pairs = Vec::new();
    for before in options {
        for after in options.iter().filter(|after| after.number != before.number) {
            pairs.push((before.number, after.number));
        }
    }
    let count = count.min(pairs.len());
    let drawn = random.draw(pairs, count);
    let mut line = |(before, after)| Ordering {
        before,
        after,
        weight: weight(random, weights),
    };
    drawn.into_iter().map(&mut line).collect()
}

/// Catalogue lines, most of them between subscribed options; one in so many is an exclusion.
pub(crate) fn catalogue(
    random: &mut Random,
    options: &[Subscription],
    count: usize,
    exclusions: usize,
) -> Vec<CatalogueLine> {
    let mut lines = Vec::new();
    while lines.len() < count {
        let mut end = || match options.len() {
            0 => random.within(1, 250) as u8,
            _ if random.once_in(8) => random.within(1, 250) as u8,
            _ => options[random.below(options.len())].number,
        };
        let (before, after) = (end(), end());
        let letter = if random.once_in(exclusions) {
            Letter::X
        } else {
            Letter::C
        };
        if before != after {
            lines.push(CatalogueLine {
                letter,
                before,
                after,
            });
        } else if options.len() == 1 {
            lines.push(CatalogueLine {
                letter,
                before,
                after: before % 250 + 1,
            });
        }
    }
    lines
}

/// A sheet with at most so many items (32 options and 64 orderings at the most).
pub fn small_sheet(seed: u64, most_items: usize) -> Sheet {
    let mut random = Random::new("small sheet", seed);
    let items = random.below(most_items + 1);
    let most_options = items.min(Sheet::OPTIONS);
    let fewest_options = items.saturating_sub(Sheet::ORDERINGS).max(items.min(2));
    let option_count = random.within(fewest_options, most_options);
    let (first, second) = (random.pick(&ALL_WEIGHTS), random.pick(&ALL_WEIGHTS));
    let options = options(&mut random, option_count, first);
    let orderings = orderings(&mut random, &options, items - option_count, second);
    let line_count = random.below(2 * option_count + 3);
    let exclusions = random.pick(&[1, 2, 4, 100]);
    let catalogue = catalogue(&mut random, &options, line_count, exclusions);
    Sheet {
        catalogue,
        options,
        orderings,
    }
}

/// A sheet with 512 catalogue lines, 32 options and 64 orderings.
pub fn full_sheet(seed: u64) -> Sheet {
    let mut random = Random::new("full sheet", seed);
    let (first, second) = (random.pick(&ALL_WEIGHTS), random.pick(&ALL_WEIGHTS));
    let options = options(&mut random, Sheet::OPTIONS, first);
    let orderings = orderings(&mut random, &options, Sheet::ORDERINGS, second);
    let exclusions = random.pick(&[1, 2, 4, 100]);
    let near = random.pick(&[2, 4, Sheet::OPTIONS]);
    let catalogue = catalogue(
        &mut random,
        &options[..near],
        Sheet::CATALOGUE_LINES,
        exclusions,
    );
    Sheet {
        catalogue,
        options,
        orderings,
    }
}

/// The sheet whose text is longest: 6,446 bytes.
pub fn longest_sheet() -> Sheet {
    let option = |index: usize| (250 - index) as u8;
    let line = CatalogueLine {
        letter: Letter::X,
        before: 250,
        after: 249,
    };
    let ordering = |index: usize| Ordering {
        before: option(index % 32),
        after: option((index + 1 + index / 32) % 32),
        weight: 9999,
    };
    Sheet {
        catalogue: vec![line; Sheet::CATALOGUE_LINES],
        options: (0..Sheet::OPTIONS)
            .map(|index| Subscription {
                number: option(index),
                weight: 9999,
            })
            .collect(),
        orderings: (0..Sheet::ORDERINGS).map(ordering).collect(),
    }
}

/// Decisions for the items of a sheet; how many are open depends on the seed too.
pub fn decisions(seed: u64, sheet: &Sheet) -> Decisions {
    let mut random = Random::new("decisions", seed);
    let opens = random.within(0, 4);
    let mut from = vec![Decision::Kept, Decision::Dropped];
    from.extend(std::iter::repeat_n(Decision::Open, opens));
    if random.once_in(3) {
        from.retain(|&decision| decision != Decision::Dropped);
    }
    let items: Vec<Decision> = (0..sheet.items()).map(|_| random.pick(&from)).collect();
    Decisions::from_items(sheet, &items)
}

/// A full decision that keeps about as much of a sheet as the seed says, and often orders that
/// can be sequenced: no ordering is kept without its options.
pub fn full_decisions(seed: u64, sheet: &Sheet) -> Decisions {
    let mut random = Random::new("full decisions", seed);
    let one_in = random.within(1, 4);
    let mut result = Decisions::open();
    for slot in 0..sheet.options.len() {
        let kept = random.once_in(one_in);
        result.options[slot] = if kept {
            Decision::Kept
        } else {
            Decision::Dropped
        };
    }
    for (slot, ordering) in sheet.orderings.iter().enumerate() {
        let (before, after) = sheet.ends(ordering);
        let both = [before, after]
            .iter()
            .all(|&end| result.options[end] == Decision::Kept);
        let kept = both && random.once_in(2);
        result.orderings[slot] = if kept {
            Decision::Kept
        } else {
            Decision::Dropped
        };
    }
    result
}

/// The record of a sheet with up to two entries changed, most often to one that no sheet gives.
pub fn damaged_record(seed: u64, sheet: &Sheet) -> Record {
    let mut random = Random::new("damaged record", seed);
    let mut record = Record::of(sheet);
    for _ in 0..random.within(0, 2) {
        damage_record(&mut random, &mut record);
    }
    record
}

/// An index of an array: half of the time near the end of its used entries.
fn entry(random: &mut Random, used: usize, length: usize) -> usize {
    let near = (used + random.below(3)).saturating_sub(1);
    let any = random.below(length);
    if random.once_in(2) {
        near.min(length - 1)
    } else {
        any
    }
}

/// A count near the right one, or near the most.
fn count(random: &mut Random, right: usize, most: usize) -> usize {
    random.pick(&[0, right.saturating_sub(1), right, right + 1, most, most + 1])
}

/// Changes one entry or one count.
fn damage_record(random: &mut Random, record: &mut Record) {
    let line = entry(random, record.catalogue_count, Sheet::CATALOGUE_LINES);
    let option = entry(random, record.option_count, Sheet::OPTIONS);
    let ordering = entry(random, record.ordering_count, Sheet::ORDERINGS);
    let named = record.numbers[entry(random, record.option_count, Sheet::OPTIONS)];
    let number = random.pick(&[0, 1, 2, 250, 251, 255, named, named]);
    let weight = random.pick(&[0, 1, 9999, 10_000, 65_535]);
    match random.below(11) {
        0 => record.letters[line] = random.pick(b"\0CXFU"),
        1 => record.befores[line] = number,
        2 => record.afters[line] = number,
        3 => record.numbers[option] = number,
        4 => record.weights[option] = weight,
        5 => record.firsts[ordering] = number,
        6 => record.seconds[ordering] = number,
        7 => record.ordering_weights[ordering] = weight,
        8 => record.catalogue_count = count(random, record.catalogue_count, 512),
        9 => record.option_count = count(random, record.option_count, 32),
        _ => record.ordering_count = count(random, record.ordering_count, 64),
    }
}

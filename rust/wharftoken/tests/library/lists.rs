//! Lists of decisions as bytes, drawn from a seed: good ones and, now and then, wrong ones.

use twin::random::{self, Random};
use twin::{Decision, Decisions, Sheet};

/// Decides an entry past the counts of the sheet, if there is one.
fn decided_past(random: &mut Random, sheet: &Sheet, list: &mut [u8]) {
    let options: Vec<usize> = (sheet.options.len()..32).collect();
    let orderings: Vec<usize> = (32 + sheet.orderings.len()..96).collect();
    let past = random.pick(&[&options, &orderings]);
    if let Some(&first) = past.first() {
        // The first one past the count is the likeliest to be taken for one of the sheet's.
        let any = random.pick(past);
        let entry = random.pick(&[first, any]);
        list[entry] = random.pick(&[1, 2]);
    }
}

/// Spoils one list in some: an entry past the counts, or a byte that is no decision.
fn spoilt(random: &mut Random, sheet: &Sheet, mut list: Vec<u8>) -> Vec<u8> {
    match random.below(24) {
        0 | 1 => decided_past(random, sheet, &mut list),
        2 => {
            let entry = random.below(list.len());
            list[entry] = random.pick(&[3, 4, 127, 128, 129, 130, 254, 255]);
        }
        _ => {}
    }
    list
}

/// A half-decided list.
pub fn half_decided(seed: u64, sheet: &Sheet) -> Vec<u8> {
    let mut random = Random::new("half-decided list", seed);
    let mut list = random::decisions(seed, sheet).to_bytes();
    if sheet.items() > 0 && random.once_in(2) {
        list = hardly_decided(&mut random, sheet);
    }
    spoilt(&mut random, sheet, list)
}

/// One or two items kept and all others open: what makes options clash through a kept one.
fn hardly_decided(random: &mut Random, sheet: &Sheet) -> Vec<u8> {
    let mut list = Decisions::open().to_bytes();
    for _ in 0..random.within(1, 2) {
        let item = random.below(sheet.items());
        list[entry(sheet, item)] = 1;
    }
    list
}

/// Every item kept or dropped by chance, whatever becomes of the orderings.
fn careless(random: &mut Random, sheet: &Sheet) -> Decisions {
    let kept = random.within(1, 4);
    let mut from = vec![Decision::Dropped];
    from.extend(std::iter::repeat_n(Decision::Kept, kept));
    let items: Vec<Decision> = (0..sheet.items()).map(|_| random.pick(&from)).collect();
    Decisions::from_items(sheet, &items)
}

/// A list in which most often everything is decided.
pub fn full(seed: u64, sheet: &Sheet) -> Vec<u8> {
    let mut random = Random::new("full list", seed);
    let list = match random.below(3) {
        0 => careless(&mut random, sheet),
        1 => random::full_decisions(seed, sheet),
        _ => everything_kept_but(&mut random, sheet),
    };
    let mut list = list.to_bytes();
    if sheet.items() > 0 && random.once_in(12) {
        let item = random.below(sheet.items());
        list[entry(sheet, item)] = 0;
    }
    spoilt(&mut random, sheet, list)
}

/// Where the decision of an item stands.
fn entry(sheet: &Sheet, item: usize) -> usize {
    match item.checked_sub(sheet.options.len()) {
        None => item,
        Some(ordering) => 32 + ordering,
    }
}

/// All options kept, and most orderings: what makes cycles by orderings.
fn everything_kept_but(random: &mut Random, sheet: &Sheet) -> Decisions {
    let dropped = random.within(2, 5);
    let options = sheet.options.len();
    let items: Vec<Decision> = (0..sheet.items())
        .map(|item| match item >= options && random.once_in(dropped) {
            true => Decision::Dropped,
            false => Decision::Kept,
        })
        .collect();
    Decisions::from_items(sheet, &items)
}

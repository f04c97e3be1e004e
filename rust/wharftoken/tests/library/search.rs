//! The best relaxation, and what is found at a tolerance.

use crate::tally::Tally;
use crate::{expected, lent, seeds, shown};
use std::collections::BTreeSet;
use twin::random::{Random, small_sheet};
use twin::{MOST_TOLERANCE, Record, Sheet};
use wharftoken::raw;

const LENGTHS: (usize, usize) = (raw::DECISIONS, raw::TOTALS);

/// What the sheet has that makes a search go wrong.
fn count_kinds(tally: &mut Tally, sheet: &Sheet) {
    let options: Vec<u16> = sheet.options.iter().map(|one| one.weight).collect();
    let orderings: Vec<u16> = sheet.orderings.iter().map(|one| one.weight).collect();
    tally.count("an option of weight 0", options.contains(&0));
    tally.count("an ordering of weight 0", orderings.contains(&0));
    let mut positive = [options, orderings].concat();
    positive.retain(|&weight| weight > 0);
    let different: BTreeSet<&u16> = positive.iter().collect();
    tally.count("equal weights above 0", different.len() < positive.len());
    tally.count("different weights above 0", different.len() > 1);
    let both = sheet.orderings.iter().any(|one| {
        let other = |other: &twin::Ordering| (other.after, other.before) == (one.before, one.after);
        sheet.orderings.iter().any(other)
    });
    tally.count("both orders of a pair", both);
    let greatest = twin::best(sheet).1;
    let consistent = twin::every_consistent(sheet);
    let worth_most = consistent
        .iter()
        .filter(|one| twin::value(sheet, one) == greatest);
    tally.count("ties", worth_most.count() > 1);
    tally.count(
        "not everything can be kept",
        greatest < sheet.weight_of_everything(),
    );
}

/// A tolerance above 0: a small one, one round a weight, or any.
fn tolerance(seed: u64) -> u32 {
    let mut random = Random::new("tolerance", seed);
    let most = random.pick(&[5, 20, 10_000, MOST_TOLERANCE as usize]);
    random.within(1, most) as u32
}

#[test]
fn searches_of_small_sheets() {
    let mut tally = Tally::new("searches");
    for seed in seeds("searches", 540_001..547_001) {
        let sheet = small_sheet(seed, 11);
        let record = Record::of(&sheet).to_bytes();
        let best = expected::best(&sheet);
        let found = lent::search(&record, 0, LENGTHS);
        assert_eq!(found, Ok(best.clone()), "{}", shown(seed, &sheet));
        let tolerance = tolerance(seed);
        let near = lent::search(&record, tolerance, LENGTHS).expect("a record and a tolerance");
        let judged = twin::check_answer(&sheet, tolerance, &expected::answer(&near));
        assert_eq!(
            judged,
            Ok(()),
            "{tolerance}, {near:?}, {}",
            shown(seed, &sheet)
        );
        tally.count("near the best only", near.1[0] < best.1[0]);
        count_kinds(&mut tally, &sheet);
    }
    tally.assert_each(8, 50);
}

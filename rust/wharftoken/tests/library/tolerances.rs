//! The largest tolerance and those above it.

use crate::{expected, lent, seeds, shown};
use twin::random::{damaged_record, small_sheet};
use twin::{MOST_TOLERANCE, Record, Refused};
use wharftoken::raw;

const LENGTHS: (usize, usize) = (raw::DECISIONS, raw::TOTALS);

#[test]
fn the_largest_tolerance_is_accepted() {
    assert_eq!(wharftoken::MOST_TOLERANCE, MOST_TOLERANCE);
    for seed in seeds("the largest tolerance", 550_001..550_501) {
        let sheet = small_sheet(seed, 12);
        let record = Record::of(&sheet).to_bytes();
        let found = lent::search(&record, 959_904, LENGTHS).expect("the largest tolerance");
        let judged = twin::check_answer(&sheet, 959_904, &expected::answer(&found));
        assert_eq!(judged, Ok(()), "{}", shown(seed, &sheet));
    }
}

#[test]
fn larger_ones_are_refused_as_11_after_12_and_before_13() {
    let mut refused_as_12 = 0;
    for seed in seeds("larger tolerances", 551_001..552_001) {
        let record = damaged_record(seed, &small_sheet(seed, 12)).to_bytes();
        let number = match expected::sheet(&record) {
            Ok(_) => 11,
            Err(_) => 12,
        };
        refused_as_12 += usize::from(number == 12);
        for tolerance in [959_905, 959_906, 1 << 31, u32::MAX] {
            for lengths in [LENGTHS, (95, 2), (96, 1), (0, 0)] {
                let found = lent::search(&record, tolerance, lengths);
                assert_eq!(found, Err(Refused::nowhere(number)), "seed {seed}");
            }
        }
    }
    println!("{refused_as_12} of 1000 refused as 12");
    assert!((100..900).contains(&refused_as_12));
}

//! What is read is written back byte for byte; what is written reads back as the same record.

use crate::{lent, seeds};
use twin::random::{full_sheet, longest_sheet, small_sheet};
use twin::{Record, Sheet};
use wharftoken::raw;

/// The longest text that a sheet has.
const LONGEST: usize = 6446;

fn there_and_back(seed: u64, sheet: &Sheet) {
    let text = twin::write(sheet);
    let record = lent::read(&text, raw::RECORD).expect("a sheet's text");
    assert_eq!(record, Record::of(sheet).to_bytes(), "seed {seed}");
    let written = lent::write(&record, LONGEST).expect("a sheet's record");
    assert_eq!(written, text, "seed {seed}: read, then written");
    let again = lent::read(&written, raw::RECORD).expect("a written text");
    assert_eq!(again, record, "seed {seed}: written, then read");
}

#[test]
fn small_sheets() {
    for seed in seeds("round trips", 560_001..563_001) {
        there_and_back(seed, &small_sheet(seed, 40));
    }
}

#[test]
fn full_sheets() {
    for seed in seeds("round trips of full sheets", 563_001..563_501) {
        there_and_back(seed, &full_sheet(seed));
    }
}

#[test]
fn the_shortest_and_the_longest() {
    there_and_back(0, &Sheet::default());
    there_and_back(0, &longest_sheet());
    let text = twin::write(&longest_sheet());
    assert_eq!(text.len(), LONGEST);
}

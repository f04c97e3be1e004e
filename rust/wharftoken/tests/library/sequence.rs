//! Sequences of chosen relaxations.

use crate::tally::Tally;
use crate::{expected, lent, lists, seeds, shown};
use twin::random::{full_sheet, small_sheet};
use twin::{Decisions, Record, Refused, Sheet};
use wharftoken::raw;

/// The number of a refusal, which is the twin's, or 0.
fn compared(seed: u64, sheet: &Sheet, list: &[u8]) -> u32 {
    let record = Record::of(sheet).to_bytes();
    let found = lent::sequence(&record, list, raw::PLACES);
    let wanted = expected::sequence(&record, list, raw::PLACES);
    assert_eq!(found, wanted, "{}{list:?}", shown(seed, sheet));
    found.err().map_or(0, |refused: Refused| refused.number)
}

/// Why a list is refused as 14.
fn count_wrong(tally: &mut Tally, sheet: &Sheet, list: &[u8]) {
    let decisions = Decisions::from_bytes(list);
    tally.count("14, a byte that is no decision", decisions.is_none());
    if let Some(decisions) = decisions {
        let past = decisions.refuse_past_counts(sheet).is_err();
        tally.count("14, decided past the counts", past);
        tally.count("14, open where all must be decided", !past);
    }
}

/// Why a full decision is refused as 15.
fn count_inconsistent(tally: &mut Tally, sheet: &Sheet, list: &[u8]) {
    let decisions = Decisions::from_bytes(list).expect("a full decision");
    let lacking = !twin::is_relaxation(sheet, &decisions);
    let without_catalogue = Sheet {
        catalogue: Vec::new(),
        ..sheet.clone()
    };
    let without_orderings = Sheet {
        orderings: Vec::new(),
        ..sheet.clone()
    };
    let by_orderings = !lacking && !twin::is_consistent(&without_catalogue, &decisions);
    let by_catalogue = !lacking && !twin::is_consistent(&without_orderings, &decisions);
    let mixed = !lacking && !by_catalogue && !by_orderings;
    tally.count("15, a kept ordering with a dropped end", lacking);
    tally.count("15, a cycle by catalogue", by_catalogue && !by_orderings);
    tally.count("15, a cycle by orderings", by_orderings && !by_catalogue);
    tally.count("15, a mixed cycle", mixed);
}

#[test]
fn sequences_of_small_sheets() {
    let mut tally = Tally::new("sequences");
    for seed in seeds("sequences", 700_001..716_001) {
        let sheet = small_sheet(seed, 12);
        let list = lists::full(seed, &sheet);
        let number = compared(seed, &sheet, &list);
        tally.count("sequences", number == 0);
        match number {
            14 => count_wrong(&mut tally, &sheet, &list),
            15 => count_inconsistent(&mut tally, &sheet, &list),
            _ => assert_eq!(number, 0, "seed {seed}"),
        }
    }
    tally.assert_each(8, 50);
}

#[test]
fn sequences_of_full_sheets() {
    let mut tally = Tally::new("sequences of full sheets");
    for seed in seeds("sequences of full sheets", 530_001..531_001) {
        let sheet = full_sheet(seed);
        let number = compared(seed, &sheet, &lists::full(seed, &sheet));
        tally.count("sequences", number == 0);
        tally.count("refused as 14", number == 14);
        tally.count("refused as 15", number == 15);
    }
    tally.assert_each(3, 10);
}

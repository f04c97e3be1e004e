//! Forced decisions, contradictions and limits.

use crate::lent::Limited;
use crate::tally::Tally;
use crate::{expected, lent, lists, seeds, shown};
use twin::random::{Random, full_sheet, small_sheet};
use twin::{
    CatalogueLine, Decision, Decisions, Forced, Letter, Record, Refused, Sheet, Subscription,
};
use wharftoken::raw;

const LENGTHS: (usize, usize) = (raw::DECISIONS, raw::LIMITS);

/// The library's answer, which is the twin's.
fn compared(seed: u64, sheet: &Sheet, list: &[u8]) -> Result<Limited, Refused> {
    let record = Record::of(sheet).to_bytes();
    let found = lent::limits(&record, list, LENGTHS);
    let wanted = expected::limits(&record, list, LENGTHS);
    assert_eq!(found, wanted, "{}{list:?}", shown(seed, sheet));
    found
}

/// What is forced, by looking at all consistent relaxations that agree with the decisions: what
/// all of them keep, and what all of them drop. None for a contradiction: no one agrees.
fn surveyed(sheet: &Sheet, list: &Decisions) -> Option<Decisions> {
    let given = list.items(sheet);
    let mut agreeing: Vec<Vec<Decision>> = Vec::new();
    for one in twin::every_consistent(sheet) {
        let items = one.items(sheet);
        let agrees = |(given, item)| given == &Decision::Open || given == item;
        if given.iter().zip(&items).all(agrees) {
            agreeing.push(items);
        }
    }
    let first = agreeing.first()?;
    let common = |item: usize| match agreeing.iter().all(|one| one[item] == first[item]) {
        true => first[item],
        false => Decision::Open,
    };
    let items: Vec<Decision> = (0..sheet.items()).map(common).collect();
    Some(Decisions::from_items(sheet, &items))
}

/// Pairs of open options that clash.
fn clashes(sheet: &Sheet, forced: &Forced) -> Vec<(usize, usize)> {
    let open = |slot: usize| forced.decisions.options[slot] == Decision::Open;
    let slots = || (0..sheet.options.len()).filter(|&slot| open(slot));
    let pairs = slots().flat_map(|one| slots().map(move |other| (one, other)));
    pairs.filter(|&(a, b)| forced.clash(a, b)).collect()
}

fn count_clashes(tally: &mut Tally, sheet: &Sheet, list: &Decisions) {
    let Some(forced) = twin::forced(sheet, list) else {
        return;
    };
    let clashes = clashes(sheet, &forced);
    let catalogue = sheet.precedences();
    let by_catalogue =
        |&(a, b): &(usize, usize)| catalogue.contains(&(a, b)) && catalogue.contains(&(b, a));
    tally.count("clashes", !clashes.is_empty());
    let through_kept = !clashes.iter().all(by_catalogue);
    tally.count("clashes through a kept option", through_kept);
}

/// A sheet of at least three options with a ring of three in the catalogue, and a list that keeps
/// one of them: the other two clash through it, if nothing else is in the way.
fn ringed(seed: u64) -> (Sheet, Vec<u8>) {
    let mut sheet = small_sheet(seed, 10);
    while sheet.options.len() < 3 {
        let number = (1..).find(|&number| sheet.slot(number).is_none());
        sheet.options.push(Subscription {
            number: number.expect("a number that is free"),
            weight: seed as u16 % 10,
        });
    }
    let mut random = Random::new("ring", seed);
    let ring = random.draw((0..sheet.options.len()).collect(), 3);
    for (before, after) in [(0, 1), (1, 2), (2, 0)] {
        sheet.catalogue.push(CatalogueLine {
            letter: Letter::C,
            before: sheet.options[ring[before]].number,
            after: sheet.options[ring[after]].number,
        });
    }
    let mut list = Decisions::open();
    list.options[ring[1]] = Decision::Kept;
    (sheet, list.to_bytes())
}

/// Compares with the twin, then with what all consistent relaxations say, and counts.
fn survey(tally: &mut Tally, seed: u64, sheet: &Sheet, bytes: &[u8]) {
    let found = compared(seed, sheet, bytes);
    let list = Decisions::from_bytes(bytes);
    tally.count("14, a byte that is no decision", list.is_none());
    let Some(list) = list else { return };
    tally.count("14, decided past the counts", found.is_err());
    let Ok((contradiction, forced, _)) = found else {
        return;
    };
    let surveyed = surveyed(sheet, &list);
    assert_eq!(contradiction, surveyed.is_none(), "{}", shown(seed, sheet));
    let wanted = surveyed.unwrap_or(Decisions::open());
    assert_eq!(forced, wanted.to_bytes(), "{}", shown(seed, sheet));
    tally.count("contradictions", contradiction);
    tally.count("decisions forced", !contradiction && wanted != list);
    count_clashes(tally, sheet, &list);
}

#[test]
fn limits_of_small_sheets() {
    let mut tally = Tally::new("limits");
    for seed in seeds("limits", 500_001..508_001) {
        let sheet = small_sheet(seed, 10);
        survey(&mut tally, seed, &sheet, &lists::half_decided(seed, &sheet));
        let (sheet, list) = ringed(seed);
        survey(&mut tally, seed, &sheet, &list);
    }
    tally.assert_each(6, 300);
}

/// Limits need no search, so that full sheets of every kind can be compared.
#[test]
fn limits_of_full_sheets() {
    let mut tally = Tally::new("limits of full sheets");
    for seed in seeds("limits of full sheets", 510_001..510_601) {
        let sheet = full_sheet(seed);
        let open = compared(seed, &sheet, &Decisions::open().to_bytes());
        assert!(open.is_ok(), "seed {seed}: nothing is decided wrongly");
        let found = compared(seed, &sheet, &lists::half_decided(seed, &sheet));
        tally.count("refused", found.is_err());
        let contradicts = found.as_ref().is_ok_and(|found| found.0);
        tally.count("contradictions", contradicts);
        // Of a list that decides little, much stays open.
        let mut few = Decisions::open();
        few.options[(seed % 32) as usize] = Decision::Kept;
        few.orderings[(seed % 64) as usize] = Decision::Dropped;
        let found = compared(seed, &sheet, &few.to_bytes());
        tally.count("no contradiction", found.is_ok_and(|found| !found.0));
    }
    tally.assert_each(3, 10);
}

//! Sheets with too many items for the twin to look at every choice. It judges the answer instead:
//! consistent, its value right, no better one within two changes; then it writes the report again.

use crate::tally::Tally;
use crate::{expected, lent, seeds, shown};
use twin::random::{Random, full_sheet, small_sheet};
use twin::{Answer, Decision, Decisions, MOST_ENUMERATED, Record, Sheet};
use wharftoken::raw;

/// The ordering that a report names.
fn slot_of_pair(sheet: &Sheet, before: &str, after: &str) -> Option<usize> {
    let pair = (before.parse().ok()?, after.parse().ok()?);
    let named = |one: &twin::Ordering| (one.before, one.after) == pair;
    sheet.orderings.iter().position(named)
}

/// The answer that a report shows: what it does not name as dropped is kept.
fn read_back(sheet: &Sheet, report: &str) -> Option<Answer> {
    let mut lines = report
        .lines()
        .map(|line| line.split(' ').collect::<Vec<_>>());
    let first = lines.next()?;
    let ["V", value, ceiling] = first[..] else {
        return None;
    };
    let everything = vec![Decision::Kept; sheet.items()];
    let mut decisions = Decisions::from_items(sheet, &everything);
    for line in lines {
        match line[..] {
            ["S", _, _] => {}
            ["D", number] => {
                let slot = sheet.slot(number.parse().ok()?)?;
                decisions.options[slot] = Decision::Dropped;
            }
            ["R", before, after] => {
                let slot = slot_of_pair(sheet, before, after)?;
                decisions.orderings[slot] = Decision::Dropped;
            }
            _ => return None,
        }
    }
    Some(Answer {
        decisions,
        value: value.parse().ok()?,
        ceiling: ceiling.parse().ok()?,
    })
}

/// Judges the report on a sheet; the value that it shows.
pub fn reported(seed: u64, sheet: &Sheet) -> u32 {
    let report = lent::report(&twin::write(sheet), 1024).expect("a report fits");
    let text = String::from_utf8_lossy(&report);
    let answer = read_back(sheet, &text).expect("a report on an accepted sheet");
    let judged = twin::check_answer(sheet, 0, &answer);
    assert_eq!(judged, Ok(()), "{}\n{text}", shown(seed, sheet));
    let (value, ceiling) = (answer.value, answer.ceiling);
    let again = twin::report_text(sheet, &answer.decisions, value, ceiling);
    assert_eq!(again.as_ref(), Ok(&report), "{}", shown(seed, sheet));
    value
}

/// Judges what the search finds at a tolerance; its value.
fn found(seed: u64, sheet: &Sheet, tolerance: u32) -> u32 {
    let record = Record::of(sheet).to_bytes();
    let lengths = (raw::DECISIONS, raw::TOTALS);
    let found = lent::search(&record, tolerance, lengths).expect("a record and a tolerance");
    let answer = expected::answer(&found);
    let judged = twin::check_answer(sheet, tolerance, &answer);
    assert_eq!(judged, Ok(()), "{tolerance}, {}", shown(seed, sheet));
    answer.value
}

/// Reports and searches; the values at tolerance 0 agree, and the other is near.
fn judge(tally: &mut Tally, seed: u64, sheet: &Sheet) {
    let value = reported(seed, sheet);
    assert_eq!(found(seed, sheet, 0), value, "{}", shown(seed, sheet));
    let tolerance = Random::new("tolerance", seed).within(1, 500) as u32;
    let near = found(seed, sheet, tolerance);
    assert!(near <= value && value - near <= tolerance, "seed {seed}");
    let everything = sheet.weight_of_everything();
    tally.count("everything kept", value == everything);
    tally.count("something dropped", value < everything);
    tally.count("at a tolerance: less than the best", near < value);
}

#[test]
fn sheets_of_up_to_30_items() {
    let mut tally = Tally::new("up to 30 items");
    for seed in seeds("up to 30 items", 420_001..424_001) {
        let sheet = small_sheet(seed, 30);
        if sheet.items() > MOST_ENUMERATED {
            judge(&mut tally, seed, &sheet);
        }
    }
    tally.assert_each(3, 50);
}

#[test]
fn full_sheets() {
    let mut tally = Tally::new("full sheets");
    for seed in seeds("full sheets", 410_001..410_301) {
        judge(&mut tally, seed, &full_sheet(seed));
    }
    tally.assert_each(3, 5);
}

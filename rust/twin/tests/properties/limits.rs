//! Forced decisions and limits against every consistent relaxation, and against the formulas
//! worked out a second time.

use crate::every::{Relaxation, consistent_relaxations};
use crate::{formulas, seeds};
use twin::random::{decisions, full_sheet, small_sheet};
use twin::{Decision, Decisions, ItemLimits, Limits, Sheet};

/// The limits of all items, options first.
fn item_limits(sheet: &Sheet, limits: &Limits) -> Vec<ItemLimits> {
    let options = &limits.options[..sheet.options.len()];
    [options, &limits.orderings[..sheet.orderings.len()]].concat()
}

/// Whether the value of a relaxation is within the limits of an open item.
fn within(one: &Relaxation, item: usize, limits: &ItemLimits) -> bool {
    if one.keeps(item) {
        (limits.kept_lower..=limits.kept_upper).contains(&one.value)
    } else {
        (limits.dropped_lower..=limits.dropped_upper).contains(&one.value)
    }
}

/// What is wrong with the limits and decisions that were found, if these relaxations agree.
fn fault(sheet: &Sheet, found: &Limits, agreeing: &[&Relaxation]) -> Option<String> {
    let decided = found.decisions.items(sheet);
    for one in agreeing {
        if !one.agrees(&decided) || !(found.lower..=found.upper).contains(&one.value) {
            return Some(format!("the whole sheet and {one:?}"));
        }
    }
    for (item, limits) in item_limits(sheet, found).iter().enumerate() {
        let good = if decided[item] == Decision::Open {
            agreeing.iter().all(|one| within(one, item, limits))
                && agreeing.iter().any(|one| one.keeps(item))
                && agreeing.iter().any(|one| !one.keeps(item))
        } else {
            *limits == ItemLimits::default()
        };
        if !good {
            return Some(format!("item {item}"));
        }
    }
    None
}

/// "It is reported exactly if no consistent relaxation agrees with the decisions"; all that agree
/// have the forced decisions and lie within all limits; an open item can still be kept and can
/// still be dropped. Whether it was a contradiction.
fn holds(sheet: &Sheet, all: &[Relaxation], list: &Decisions, seed: u64) -> bool {
    let found = twin::limits(sheet, list).expect("nothing past the counts");
    let given = list.items(sheet);
    let agreeing: Vec<&Relaxation> = all.iter().filter(|one| one.agrees(&given)).collect();
    let shown = || format!("seed {seed}, {}\n{sheet:?}\n{found:?}", list.letters(sheet));
    assert_eq!(found.contradiction, agreeing.is_empty(), "{}", shown());
    if !found.contradiction {
        assert_eq!(fault(sheet, &found, &agreeing), None, "{}", shown());
    }
    found.contradiction
}

#[test]
fn limits_hold_for_every_relaxation_that_agrees() {
    let mut contradictions = 0;
    let mut lists = 0;
    for seed in seeds("limits, up to 9 items", 1_000_000..1_020_000) {
        let sheet = small_sheet(seed, 9);
        let all = consistent_relaxations(&sheet);
        holds(&sheet, &all, &Decisions::open(), seed);
        for variant in 0..6 {
            let list = decisions(seed * 8 + variant, &sheet);
            contradictions += usize::from(holds(&sheet, &all, &list, seed));
            lists += 1;
        }
    }
    println!("{contradictions} contradictions in {lists} lists");
    assert!(contradictions > 10_000 && contradictions < lists - 10_000);
}

/// Every list of decisions for so many items.
fn every_list(sheet: &Sheet) -> Vec<Decisions> {
    let all = [Decision::Open, Decision::Kept, Decision::Dropped];
    let count = sheet.items() as u32;
    let digit = |number: usize, item: u32| all[number / 3usize.pow(item) % 3];
    let list = |number| {
        (0..count)
            .map(|item| digit(number, item))
            .collect::<Vec<_>>()
    };
    (0..3usize.pow(count))
        .map(|number| Decisions::from_items(sheet, &list(number)))
        .collect()
}

#[test]
fn limits_hold_for_every_list_of_decisions() {
    for seed in seeds("limits, every list of up to 6 items", 310_000..312_000) {
        let sheet = small_sheet(seed, 6);
        let all = consistent_relaxations(&sheet);
        for list in every_list(&sheet) {
            holds(&sheet, &all, &list, seed);
        }
    }
}

#[test]
fn a_choice_for_an_open_item_never_contradicts() {
    for seed in seeds("choices", 320_000..323_000) {
        let sheet = if seed % 100 == 0 {
            full_sheet(seed)
        } else {
            small_sheet(seed, 24)
        };
        let found = twin::limits(&sheet, &decisions(seed, &sheet)).unwrap();
        let decided = found.decisions.items(&sheet);
        if found.contradiction {
            continue;
        }
        for item in (0..decided.len()).filter(|&item| decided[item] == Decision::Open) {
            for choice in [Decision::Kept, Decision::Dropped] {
                let mut chosen = decided.clone();
                chosen[item] = choice;
                let list = Decisions::from_items(&sheet, &chosen);
                let after = twin::limits(&sheet, &list).unwrap();
                assert!(
                    !after.contradiction,
                    "seed {seed}, item {item} {choice:?}\n{sheet:?}"
                );
            }
        }
    }
}

#[test]
fn forced_decisions_force_nothing_more() {
    for seed in seeds("forced again", 330_000..334_000) {
        let sheet = small_sheet(seed, 24);
        let found = twin::limits(&sheet, &decisions(seed, &sheet)).unwrap();
        if !found.contradiction {
            let again = twin::limits(&sheet, &found.decisions).unwrap();
            assert_eq!(again, found, "seed {seed}\n{sheet:?}");
        }
    }
}

#[test]
fn limits_equal_the_formulas_worked_out_again() {
    for seed in seeds("formulas", 340_000..348_000) {
        let sheet = if seed % 200 == 0 {
            full_sheet(seed)
        } else {
            small_sheet(seed, 30)
        };
        let list = decisions(seed, &sheet);
        let found = twin::limits(&sheet, &list).unwrap();
        assert_eq!(
            found,
            formulas::limits(&sheet, &list),
            "seed {seed}\n{sheet:?}"
        );
        let open = Decisions::open();
        let found = twin::limits(&sheet, &open).unwrap();
        assert_eq!(
            found,
            formulas::limits(&sheet, &open),
            "seed {seed}\n{sheet:?}"
        );
    }
}

//! Both searches against every choice, and against each other.

use crate::classes::{class, classes};
use crate::problem::{Best, Problem};
use crate::stack::depth;
use crate::timing::{Line, Taken};
use crate::{plain, strong};
use std::time::Duration;
use twin::{Decision, Sheet};

fn kept(decisions: &[Decision]) -> u64 {
    let slots = decisions.iter().enumerate();
    slots.fold(0, |set, (slot, one)| {
        set | u64::from(*one == Decision::Kept) << slot
    })
}

/// By going through every choice.
fn enumerated(sheet: &Sheet) -> Best {
    let (decisions, value) = twin::best(sheet);
    Best {
        value,
        kept: kept(&decisions.options) as u32,
        kept_orderings: kept(&decisions.orderings),
    }
}

#[test]
fn small_sheets_are_answered_as_by_every_choice() {
    for seed in 0..4000 {
        let sheet = twin::random::small_sheet(seed, 12);
        let problem = Problem::of(&sheet);
        let best = enumerated(&sheet);
        assert_eq!(strong::best(&problem).0, best, "strong, seed {seed}");
        assert_eq!(plain::best(&problem).0, best, "plain, seed {seed}");
    }
}

#[test]
fn the_sheets_of_m110_are_answered_alike() {
    let m110 = class("m110").expect("a class");
    for number in 0..m110.sheets {
        let problem = Problem::of(&m110.sheet(number));
        assert_eq!(
            strong::best(&problem).0,
            plain::best(&problem).0,
            "sheet {number}"
        );
    }
}

#[test]
fn drawn_sheets_are_accepted() {
    for class in classes() {
        for number in 0..class.sheets {
            let sheet = class.sheet(number);
            let read = twin::read(&twin::write(&sheet));
            assert_eq!(read, Ok(sheet), "{} {number}", class.name);
        }
    }
}

#[test]
fn the_sheets_that_hung_end() {
    let ring = Problem::of(&class("even-ring").expect("a class").sheet(0));
    let fight = Problem::of(&class("fight").expect("a class").sheet(0));
    assert_eq!(strong::best(&ring).0.value, 64);
    assert_eq!(strong::best(&fight).0.value, 41);
}

#[inline(never)]
fn deep(bytes: &mut [u8]) {
    let mut own = [1u8; 100_000];
    std::hint::black_box(&mut own);
    bytes[0] = own[99_999];
}

#[test]
fn a_painted_stack_shows_how_deep_a_call_goes() {
    let mut bytes = [0];
    let found = depth(|| deep(&mut bytes));
    assert!((99_000..110_000).contains(&found), "{found}");
}

#[test]
fn lines_of_the_worker_are_read_back() {
    let taken = Taken {
        time: Duration::from_nanos(7),
        nodes: 8,
        stack: 9,
        best: Best {
            value: 1,
            kept: 2,
            kept_orderings: 3,
        },
    };
    let search = String::from("twin");
    let line = Line::Ended {
        search,
        sheet: 5,
        taken,
    }
    .print();
    assert_eq!(Line::parse(&line).map(|read| read.print()), Some(line));
    assert!(Line::parse("begun twin").is_none());
}

//! The safe functions say what the raw ones say.

use crate::{expected, lent, lists, seeds};
use twin::random::{damaged_record, small_sheet};
use twin::{Refused, damage};
use wharftoken::{Decisions, ItemLimits, Record, Refusal};

fn refused(refusal: Refusal) -> Refused {
    Refused {
        number: u32::from(refusal.number),
        line: u32::from(refusal.line),
        column: u32::from(refusal.column),
    }
}

fn record_of(bytes: &[u8]) -> Record {
    Record::from_bytes(bytes.try_into().expect("a record's length"))
}

#[test]
fn texts() {
    for seed in seeds("safe functions on texts", 590_001..591_001) {
        let text = damage::damaged(seed, &small_sheet(seed, 10));
        assert_eq!(
            wharftoken::report(&text),
            twin::report(&text),
            "seed {seed}"
        );
        let read = wharftoken::read(&text).map(|record| record.as_bytes().to_vec());
        let wanted = expected::read(&text, 1894);
        assert_eq!(read.map_err(refused), wanted, "seed {seed}");
    }
}

/// A limit of each kind stands in its own field.
fn four(item: &ItemLimits) -> [u32; 4] {
    [
        item.kept_lower,
        item.kept_upper,
        item.dropped_lower,
        item.dropped_upper,
    ]
}

#[test]
fn records() {
    for seed in seeds("safe functions on records", 592_001..593_001) {
        let sheet = small_sheet(seed, 10);
        let bytes = damaged_record(seed, &sheet).to_bytes();
        let record = record_of(&bytes);
        assert_eq!(record.as_bytes()[..], bytes[..], "seed {seed}");
        let text = wharftoken::write(&record).map_err(refused);
        assert_eq!(text, expected::write(&bytes, 6446), "seed {seed}");
        let found = wharftoken::search(&record, 0).map_err(refused);
        let found = found.map(|one| (one.decisions.to_bytes().to_vec(), [one.value, one.ceiling]));
        assert_eq!(found, lent::search(&bytes, 0, (96, 2)), "seed {seed}");
    }
}

#[test]
fn decisions() {
    for seed in seeds("safe functions on decisions", 594_001..595_001) {
        let sheet = small_sheet(seed, 10);
        let bytes = damaged_record(seed, &sheet).to_bytes();
        let record = record_of(&bytes);
        let half = lists::half_decided(seed, &sheet);
        if let Some(list) = Decisions::from_bytes(&half.clone().try_into().expect("96 bytes")) {
            let found = wharftoken::limits(&record, &list)
                .map_err(refused)
                .map(|one| {
                    let items = one.options.iter().chain(&one.orderings);
                    let mut numbers = vec![one.lower, one.upper];
                    numbers.extend(items.flat_map(four));
                    (one.contradiction, one.forced.to_bytes().to_vec(), numbers)
                });
            assert_eq!(
                found,
                expected::limits(&bytes, &half, (96, 386)),
                "seed {seed}"
            );
        }
        let full = lists::full(seed, &sheet);
        if let Some(list) = Decisions::from_bytes(&full.clone().try_into().expect("96 bytes")) {
            let found = wharftoken::sequence(&record, &list).map_err(refused);
            let found = found.map(|one| one.numbers().to_vec());
            let wanted = expected::sequence(&bytes, &full, 32);
            let wanted = wanted.map(|(count, places)| places[..count].to_vec());
            assert_eq!(found, wanted, "seed {seed}");
        }
    }
}

#[test]
fn a_record_by_its_fields() {
    let record = wharftoken::read(b"X 7 250\nF 250 9999\nF 7 0\nU 250 7 258\nT 2 4 5\n");
    let mut wanted = Record::EMPTY;
    wanted.catalogue_lines = 1;
    (wanted.letters[0], wanted.befores[0], wanted.afters[0]) = (b'X', 7, 250);
    wanted.option_count = 2;
    (wanted.numbers[0], wanted.weights[0]) = (250, 9999);
    (wanted.numbers[1], wanted.weights[1]) = (7, 0);
    wanted.ordering_count = 1;
    (
        wanted.firsts[0],
        wanted.seconds[0],
        wanted.ordering_weights[0],
    ) = (250, 7, 258);
    assert_eq!(record, Ok(wanted));
    assert_eq!(wharftoken::read(b"T 1 1 1\n"), Ok(Record::EMPTY));
}

#[test]
fn places_count_from_1() {
    let text = b"C 1 2\nC 2 3\nF 1 5\nF 3 5\nU 3 1 2\nT 3 5 6\n";
    let record = wharftoken::read(text).expect("a sheet");
    let found = wharftoken::search(&record, 0).expect("a sheet's record");
    let sequence = wharftoken::sequence(&record, &found.decisions).expect("consistent");
    let places: Vec<Option<u8>> = (0..4).map(|place| sequence.option_at(place)).collect();
    assert_eq!(places, [None, Some(3), Some(1), None]);
}

#[test]
fn a_refusal_is_shown_as_a_report_shows_it() {
    let text = b"F 1 1\nF 2 1\nU 1 3 1\nT 1 3 4\n";
    let refusal = wharftoken::read(text).expect_err("3 is not subscribed");
    assert_eq!(refusal.to_string(), "E 9 3 5");
    assert_eq!(wharftoken::report(text), b"E 9 3 5\n");
}

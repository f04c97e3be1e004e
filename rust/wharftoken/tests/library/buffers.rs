//! Lent buffers of every kind: empty, too short by one, exact, longer. `lent` sees to it that a
//! refusal changes none of their bytes and a success none past what it writes.

use crate::tally::Tally;
use crate::{expected, lent, lists, seeds};
use twin::random::{Random, damaged_record, small_sheet};
use twin::{Record, Refused, damage};

/// Lengths round the one that is needed.
fn lengths(needed: usize) -> Vec<usize> {
    let mut lengths = vec![0, 1, needed, needed + 1, needed + 100];
    lengths.extend(needed.checked_sub(1));
    lengths
}

/// Every pair of lengths round those that are needed.
fn pairs(needed: (usize, usize)) -> Vec<(usize, usize)> {
    let seconds = lengths(needed.1);
    let firsts = lengths(needed.0).into_iter();
    firsts
        .flat_map(|first| seconds.iter().map(move |&second| (first, second)))
        .collect()
}

fn count(tally: &mut Tally, number: Option<Refused>) {
    let number = number.map_or(0, |refused| refused.number);
    tally.count("accepted", number == 0);
    tally.count("refused as 13", number == 13);
    tally.count("refused before 13", number != 0 && number != 13);
}

#[test]
fn texts() {
    let mut tally = Tally::new("buffers of texts");
    for seed in seeds("buffers of texts", 580_001..581_001) {
        let sheet = small_sheet(seed, 10);
        let text = match seed % 2 {
            0 => damage::damaged(seed, &sheet),
            _ => twin::write(&sheet),
        };
        let report = twin::report(&text);
        for length in lengths(report.len()) {
            let short = Refused::nowhere(13).when(length < report.len());
            let wanted = short.map(|()| report.clone());
            assert_eq!(lent::report(&text, length), wanted, "seed {seed}, {length}");
        }
        for length in lengths(Record::BYTES) {
            let read = lent::read(&text, length);
            assert_eq!(read, expected::read(&text, length), "seed {seed}, {length}");
            count(&mut tally, read.err());
        }
    }
    tally.assert_each(3, 100);
}

#[test]
fn records() {
    let mut tally = Tally::new("buffers of records");
    for seed in seeds("buffers of records", 582_001..582_501) {
        let sheet = small_sheet(seed, 10);
        let record = damaged_record(seed, &sheet).to_bytes();
        for length in lengths(twin::write(&sheet).len()) {
            let found = lent::write(&record, length);
            let wanted = expected::write(&record, length);
            assert_eq!(found, wanted, "seed {seed}, {length}");
            count(&mut tally, found.err());
        }
        let tolerance = Random::new("tolerance", seed).pick(&[0, 0, 0, 959_905]);
        for pair in pairs((96, 2)) {
            let found = lent::search(&record, tolerance, pair);
            let refused = expected::search_refused(&record, tolerance, pair);
            assert_eq!(
                found.as_ref().err(),
                refused.as_ref(),
                "seed {seed}, {pair:?}"
            );
            if let Ok(found) = found {
                let sheet = expected::sheet(&record).expect("not refused");
                assert_eq!(found, expected::best(&sheet), "seed {seed}, {pair:?}");
            }
            count(&mut tally, refused);
        }
    }
    tally.assert_each(3, 100);
}

#[test]
fn decisions() {
    let mut tally = Tally::new("buffers of decisions");
    for seed in seeds("buffers of decisions", 583_001..583_501) {
        let sheet = small_sheet(seed, 10);
        let record = damaged_record(seed, &sheet).to_bytes();
        let list = lists::half_decided(seed, &sheet);
        for pair in pairs((96, 386)) {
            let found = lent::limits(&record, &list, pair);
            let wanted = expected::limits(&record, &list, pair);
            assert_eq!(found, wanted, "seed {seed}, {pair:?}");
            count(&mut tally, found.err());
        }
        let list = lists::full(seed, &sheet);
        for length in lengths(32) {
            let found = lent::sequence(&record, &list, length);
            let wanted = expected::sequence(&record, &list, length);
            assert_eq!(found, wanted, "seed {seed}, {length}");
            count(&mut tally, found.err());
        }
    }
    tally.assert_each(3, 100);
}

/// A list of another length is refused as 14, before 13.
#[test]
fn lists_of_another_length() {
    let record = Record::of(&small_sheet(1, 10)).to_bytes();
    for length in [0, 1, 32, 95, 97, 192] {
        let list = vec![0; length];
        let refused = Refused::nowhere(14);
        assert_eq!(lent::limits(&record, &list, (0, 0)), Err(refused));
        assert_eq!(lent::limits(&record, &list, (96, 386)), Err(refused));
        assert_eq!(lent::sequence(&record, &list, 0), Err(refused));
        assert_eq!(lent::sequence(&record, &list, 32), Err(refused));
    }
}

//! Records that others hand over, damaged ones most of all: accepted or refused as 12 exactly as
//! the twin's rule says, by all functions that take one.

use crate::tally::Tally;
use crate::{expected, lent, lists, seeds};
use twin::random::{Random, damaged_record, full_sheet, small_sheet};
use twin::{MOST_ENUMERATED, Record, Refused, Sheet};
use wharftoken::raw;

const P: &[u8] = b"C 3 1\nX 2 4\nF 1 5\nF 2 3\nF 3 4\nF 4 2\nU 1 3 6\nU 2 1 1\nT 3 7 9\n";

/// Hands a record to all four functions; whether it is accepted.
fn compare(shown: &str, record: &[u8], list: &[u8]) -> bool {
    let text = lent::write(record, 6446);
    assert_eq!(text, expected::write(record, 6446), "{shown}");
    let limits = lent::limits(record, list, (96, 386));
    assert_eq!(limits, expected::limits(record, list, (96, 386)), "{shown}");
    let places = lent::sequence(record, list, 32);
    assert_eq!(places, expected::sequence(record, list, 32), "{shown}");
    compare_search(shown, record);
    text.is_ok()
}

/// Searches small sheets only: the twin has no best for a large one.
fn compare_search(shown: &str, record: &[u8]) {
    let wanted = match expected::sheet(record) {
        Ok(sheet) if sheet.items() > MOST_ENUMERATED => return,
        Ok(sheet) => Ok(expected::best(&sheet)),
        Err(refused) => Err(refused),
    };
    assert_eq!(lent::search(record, 0, (96, 2)), wanted, "{shown}");
}

/// Changes each byte of a record in turn, in three ways; how many were accepted and refused.
fn every_byte(seed: u64, sheet: &Sheet, tally: &mut Tally) {
    let good = Record::of(sheet).to_bytes();
    let list = lists::full(seed, sheet);
    let mut random = Random::new("every byte", seed);
    for place in 0..good.len() {
        let any = random.within(1, 255) as u8;
        for change in [1, 0x80, any] {
            let mut record = good.clone();
            record[place] ^= change;
            let shown = format!("seed {seed}, byte {place} changed by {change}");
            let accepted = compare(&shown, &record, &list);
            tally.count("accepted", accepted);
            tally.count("refused", !accepted);
        }
    }
}

#[test]
fn every_byte_of_a_record_changed() {
    let mut tally = Tally::new("every byte");
    every_byte(0, &twin::read(P).expect("sheet P"), &mut tally);
    every_byte(0, &Sheet::default(), &mut tally);
    for seed in seeds("every byte", 570_001..570_003) {
        every_byte(seed, &small_sheet(seed, 12), &mut tally);
        every_byte(seed, &full_sheet(seed), &mut tally);
    }
    tally.assert_each(2, 1000);
}

#[test]
fn counts_beyond_the_arrays() {
    for seed in seeds("counts", 571_001..571_021) {
        let sheet = if seed % 2 == 0 {
            full_sheet(seed)
        } else {
            small_sheet(seed, 12)
        };
        let good = Record::of(&sheet).to_bytes();
        let list = lists::half_decided(seed, &sheet);
        for count in 0..3 {
            for beyond in [33u16, 64, 65, 96, 512, 513, 0x2000, 0x8000, 0xFF00, 0xFFFF] {
                let mut record = good.clone();
                record[2 * count..2 * count + 2].copy_from_slice(&beyond.to_le_bytes());
                let shown = format!("seed {seed}, count {count} is {beyond}");
                let accepted = compare(&shown, &record, &list);
                let is_its_own = record == good;
                assert_eq!(accepted, is_its_own, "{shown}: unused entries are zero");
            }
        }
    }
}

#[test]
fn records_damaged_with_the_rule_in_mind() {
    let mut tally = Tally::new("damaged records");
    for seed in seeds("damaged records", 572_001..580_001) {
        let sheet = small_sheet(seed, 12);
        let record = damaged_record(seed, &sheet).to_bytes();
        let list = lists::half_decided(seed, &sheet);
        let accepted = compare(&format!("seed {seed}"), &record, &list);
        let damaged = record != Record::of(&sheet).to_bytes();
        tally.count("accepted, another sheet's", accepted && damaged);
        tally.count("refused", !accepted);
    }
    tally.assert_each(2, 50);
}

#[test]
fn records_of_another_length() {
    let refused = Refused::nowhere(12);
    let good = Record::of(&twin::read(P).expect("sheet P")).to_bytes();
    let longer = [&good[..], &[0; 2000]].concat();
    for length in [0, 1, 6, 1892, 1893, 1895, 1896, 3788] {
        let record = &longer[..length];
        assert_eq!(lent::write(record, 6446), Err(refused), "{length}");
        // 12 comes before 14, 11 and 13.
        assert_eq!(lent::limits(record, &[3], (0, 0)), Err(refused), "{length}");
        assert_eq!(lent::sequence(record, &[], 0), Err(refused), "{length}");
        assert_eq!(
            lent::search(record, u32::MAX, (0, 0)),
            Err(refused),
            "{length}"
        );
    }
    assert!(lent::write(&longer[..raw::RECORD], 6446).is_ok());
}

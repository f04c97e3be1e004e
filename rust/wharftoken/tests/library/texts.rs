//! Texts of every kind, read and reported on.

use crate::tally::Tally;
use crate::{expected, large, lent, seeds};
use twin::random::{self, Random};
use twin::{Refused, Sheet, damage};
use wharftoken::raw;

/// Sheets of at most this many items are searched exhaustively by the twin.
const MOST_ITEMS: usize = 14;
/// "At most 1,024 bytes."
const REPORT: usize = 1024;

/// Reads the text; the number of its refusal, or 0.
fn assert_read(seed: u64, text: &[u8]) -> u32 {
    let read = lent::read(text, raw::RECORD);
    let wanted = expected::read(text, raw::RECORD);
    assert_eq!(
        read,
        wanted,
        "seed {seed}: {:?}",
        String::from_utf8_lossy(text)
    );
    read.err().map_or(0, |refused| refused.number)
}

/// Reads the text and reports on it; the number of its refusal, or 0.
fn assert_same(seed: u64, text: &[u8]) -> u32 {
    let report = lent::report(text, REPORT).expect("a report fits");
    assert_eq!(
        String::from_utf8_lossy(&report),
        String::from_utf8_lossy(&twin::report(text)),
        "seed {seed}: {:?}",
        String::from_utf8_lossy(text)
    );
    assert_read(seed, text)
}

/// Compares the texts of these seeds; how many were refused with each number, accepted at 0.
fn compare(seeds: std::ops::Range<u64>, text_of: impl Fn(u64) -> Vec<u8>) -> [usize; 16] {
    let mut numbers = [0; 16];
    for seed in seeds {
        numbers[assert_same(seed, &text_of(seed)) as usize] += 1;
    }
    println!(
        "accepted {}, refused as 1 to 10: {:?}",
        numbers[0],
        &numbers[1..=10]
    );
    numbers
}

fn small(seed: u64) -> Sheet {
    random::small_sheet(seed, MOST_ITEMS)
}

#[test]
fn whole_sheets() {
    let numbers = compare(seeds("whole sheets", 1..6001), |seed| {
        twin::write(&small(seed))
    });
    assert_eq!(numbers[0], 6000, "every sheet is accepted");
}

#[test]
fn sheets_damaged_by_one_to_three_edits() {
    let numbers = compare(seeds("edited", 100_001..110_001), |seed| {
        let mut random = Random::new("edits", seed);
        damage::edited(&mut random, twin::write(&small(seed)))
    });
    assert!(numbers[0] > 500 && numbers[2] > 500 && numbers[4] > 500);
}

#[test]
fn sheets_damaged_with_a_rule_in_mind() {
    let numbers = compare(seeds("damaged", 200_001..208_001), |seed| {
        damage::damaged(seed, &small(seed))
    });
    let rare = (0..=10).find(|&number| numbers[number] < 50);
    assert_eq!(rare, None, "every refusal is met: {numbers:?}");
}

#[test]
fn truncated_sheets() {
    let numbers = compare(seeds("truncated", 300_001..303_001), |seed| {
        let mut text = twin::write(&small(seed));
        let mut random = Random::new("cut", seed);
        text.truncate(random.within(0, text.len()));
        text
    });
    assert!(numbers[2] > 2000, "most have no trailer");
}

/// The twin has no best for a full sheet that is still accepted; it judges the report instead.
#[test]
fn full_sheets_damaged() {
    let mut tally = Tally::new("full sheets, damaged");
    for seed in seeds("full sheets, damaged", 400_001..401_001) {
        let text = damage::damaged(seed, &random::full_sheet(seed));
        let sheet = twin::read(&text);
        match &sheet {
            Ok(sheet) => {
                assert_eq!(assert_read(seed, &text), 0, "seed {seed}");
                large::reported(seed, sheet);
            }
            Err(_) => {
                assert_same(seed, &text);
            }
        }
        tally.count("refused", sheet.is_err());
        tally.count("accepted", sheet.is_ok());
    }
    tally.assert_each(2, 50);
}

#[test]
fn texts_around_the_longest() {
    for size in [8191, 8192, 8193, 8194, 70_000] {
        let number = assert_same(0, &vec![b'F'; size]);
        assert_eq!(number, if size > 8192 { 1 } else { 2 });
        assert_same(0, &b"F 1 1\n".repeat(size / 6 + 1)[..size]);
    }
}

#[test]
fn no_text_and_every_single_byte() {
    assert_eq!(lent::report(b"", REPORT), Ok(b"E 2 0 0\n".to_vec()));
    for byte in 0..=255 {
        assert_same(0, &[byte]);
        assert_same(0, &[byte, b'\n']);
        assert_same(
            0,
            &[
                b'F', b' ', byte, b'\n', b'T', b' ', b'1', b' ', b'2', b' ', b'2', b'\n',
            ],
        );
    }
    let refused = lent::report(b"", 7);
    assert_eq!(refused, Err(Refused::nowhere(13)));
}

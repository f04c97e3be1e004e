//! Records against the texts that give them, and the calls on records and lent buffers.

use crate::seeds;
use twin::random::{Random, damaged_record, decisions, full_sheet, small_sheet};
use twin::{Decisions, Record, Refused, Sheet, is_recorded};

fn refusal(number: u32) -> Refused {
    Refused {
        number,
        line: 0,
        column: 0,
    }
}

/// The text that the used entries of a record write down, if they write one at all.
fn text_of(record: &Record) -> Option<String> {
    let mut text = String::new();
    for i in 0..record.catalogue_count {
        let letter = char::from(*record.letters.get(i)?);
        text += &format!("{letter} {} {}\n", record.befores[i], record.afters[i]);
    }
    for i in 0..record.option_count {
        text += &format!("F {} {}\n", record.numbers.get(i)?, record.weights[i]);
    }
    for i in 0..record.ordering_count {
        let (first, second) = (record.firsts.get(i)?, record.seconds[i]);
        text += &format!("U {first} {second} {}\n", record.ordering_weights[i]);
    }
    let f = record.catalogue_count + 1;
    let u = f + record.option_count;
    Some(text + &format!("T {f} {u} {}\n", u + record.ordering_count))
}

/// "A record that no accepted sheet gives", by looking for the sheet.
fn given_by_a_sheet(record: &Record) -> bool {
    let sheet = text_of(record).and_then(|text| twin::read(text.as_bytes()).ok());
    sheet.is_some_and(|sheet| Record::of(&sheet) == *record)
}

#[test]
fn recorded_means_given_by_a_sheet() {
    let mut counts = [0, 0];
    for seed in seeds("records", 400_000..440_000) {
        let sheet = if seed % 100 == 0 {
            full_sheet(seed)
        } else {
            small_sheet(seed, 30)
        };
        let record = damaged_record(seed, &sheet);
        let expected = given_by_a_sheet(&record);
        assert_eq!(is_recorded(&record), expected, "seed {seed}\n{record:?}");
        assert_eq!(record.sheet().is_some(), expected, "seed {seed}");
        counts[usize::from(expected)] += 1;
    }
    println!(
        "{} records of no sheet, {} of a sheet",
        counts[0], counts[1]
    );
    assert!(counts[0] > 10_000 && counts[1] > 10_000, "{counts:?}");
}

#[test]
fn a_sheet_and_its_record_are_one() {
    assert_eq!(Record::empty().sheet(), Some(Sheet::default()));
    for seed in seeds("sheets as records", 450_000..455_000) {
        let sheet = if seed % 50 == 0 {
            full_sheet(seed)
        } else {
            small_sheet(seed, 40)
        };
        assert_eq!(Record::of(&sheet).sheet(), Some(sheet), "seed {seed}");
    }
}

#[test]
fn records_and_decisions_as_bytes_and_back() {
    for seed in seeds("bytes", 456_000..457_000) {
        let sheet = if seed % 50 == 0 {
            full_sheet(seed)
        } else {
            small_sheet(seed, 40)
        };
        let record = damaged_record(seed, &sheet);
        let bytes = record.to_bytes();
        assert_eq!(Record::from_bytes(&bytes), Some(record), "seed {seed}");
        assert_eq!(Record::from_bytes(&bytes[1..]), None, "seed {seed}");
        let list = decisions(seed, &sheet);
        let mut bytes = list.to_bytes();
        assert_eq!(Decisions::from_bytes(&bytes), Some(list), "seed {seed}");
        bytes[(seed % 96) as usize] = 3;
        assert_eq!(Decisions::from_bytes(&bytes), None, "seed {seed}");
    }
}

/// Where each field stands, by one byte of each.
#[test]
fn the_fields_of_a_record_in_bytes() {
    let mut record = Record::empty();
    record.catalogue_count = 0x0102;
    record.option_count = 0x0304;
    record.ordering_count = 0x0506;
    (record.weights[0], record.ordering_weights[0]) = (0x0708, 0x090A);
    (record.letters[0], record.befores[0], record.afters[0]) = (11, 12, 13);
    (record.numbers[0], record.firsts[0], record.seconds[0]) = (14, 15, 16);
    record.seconds[63] = 17;
    let bytes = record.to_bytes();
    assert_eq!(bytes.len(), 1894);
    assert_eq!(bytes[..8], [2, 1, 4, 3, 6, 5, 8, 7]);
    assert_eq!(bytes[70..72], [10, 9]);
    let starts = [198, 710, 1222, 1734, 1766, 1830, 1893];
    let found: Vec<u8> = starts.iter().map(|&start| bytes[start]).collect();
    assert_eq!(found, [11, 12, 13, 14, 15, 16, 17]);
}

/// A buffer with bytes that tell whether it was touched.
fn lent(length: usize) -> Vec<u8> {
    (0..length).map(|index| (index * 7 + 1) as u8).collect()
}

#[test]
fn writing_into_a_lent_buffer() {
    for seed in seeds("lent buffers", 460_000..463_000) {
        let record = damaged_record(seed, &small_sheet(seed, 30));
        let length = Random::new("test", seed).below(200);
        let mut buffer = lent(length);
        let result = twin::write_into(&record, &mut buffer);
        let Some(sheet) = record.sheet() else {
            assert_eq!(
                (result, buffer),
                (Err(refusal(12)), lent(length)),
                "seed {seed}"
            );
            continue;
        };
        let text = twin::write(&sheet);
        if text.len() > length {
            assert_eq!(
                (result, buffer),
                (Err(refusal(13)), lent(length)),
                "seed {seed}"
            );
        } else {
            let expected = [&text[..], &lent(length)[text.len()..]].concat();
            assert_eq!((result, buffer), (Ok(text.len()), expected), "seed {seed}");
        }
    }
}

#[test]
fn a_report_fits_exactly_or_is_refused() {
    let text = b"X 1 2\nF 2 5\nF 1 5\nT 2 4 4\n";
    let report = twin::report(text);
    for length in 0..report.len() + 3 {
        let mut buffer = lent(length);
        let result = twin::report_into(text, &mut buffer);
        if length < report.len() {
            assert_eq!((result, buffer), (Err(refusal(13)), lent(length)));
        } else {
            assert_eq!(result, Ok(report.len()));
            assert_eq!(
                buffer,
                [&report[..], &lent(length)[report.len()..]].concat()
            );
        }
    }
    assert_eq!(twin::report_into(b"", &mut [0; 7]), Err(refusal(13)));
    assert_eq!(twin::report_into(b"", &mut [0; 8]), Ok(8));
}

#[test]
fn refusals_of_records_come_first() {
    let most = twin::MOST_TOLERANCE;
    for seed in seeds("refusals", 470_000..472_000) {
        let sheet = small_sheet(seed, 20);
        let record = damaged_record(seed, &sheet);
        let mut list = decisions(seed, &sheet);
        if seed % 2 == 0 {
            list.orderings[63] = twin::Decision::Kept;
        }
        let (limits, places) = (
            twin::limits_of(&record, &list),
            twin::sequence_of(&record, &list),
        );
        if let Some(sheet) = record.sheet() {
            assert_eq!(limits, twin::limits(&sheet, &list), "seed {seed}");
            assert_eq!(places, twin::sequence(&sheet, &list), "seed {seed}");
            assert_eq!(twin::search_refused(&record, most), None, "seed {seed}");
            assert_eq!(twin::search_refused(&record, most + 1), Some(refusal(11)));
        } else {
            assert_eq!(
                (limits, places),
                (Err(refusal(12)), Err(refusal(12))),
                "seed {seed}"
            );
            assert_eq!(twin::search_refused(&record, most + 1), Some(refusal(12)));
        }
    }
}

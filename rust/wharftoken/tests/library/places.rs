//! `docs/PLACES.md`: the sample sheets with their reports, and places as offsets and back.

use crate::tally::Tally;
use crate::{lent, seeds};
use std::path::PathBuf;
use twin::random::small_sheet;
use twin::{Refused, damage};
use wharftoken::raw;

/// How many bytes stand before a line.
fn start(text: &[u8], line: usize) -> usize {
    let lines = text.split_inclusive(|&byte| byte == b'\n');
    lines.take(line - 1).map(<[u8]>::len).sum()
}

/// The offset, from 0, of a line and a column, both from 1.
fn offset(text: &[u8], line: usize, column: usize) -> usize {
    start(text, line) + column - 1
}

/// The line and the column of an offset.
fn place(text: &[u8], offset: usize) -> (usize, usize) {
    let ended = text[..offset].iter().filter(|&&byte| byte == b'\n').count();
    let line = 1 + ended;
    (line, 1 + offset - start(text, line))
}

fn refused(text: &[u8]) -> Option<Refused> {
    lent::read(text, raw::RECORD).err()
}

/// Whether a refusal has a place; if so, there and back is the same, and all before is ASCII.
fn has_place(seed: u64, text: &[u8], refused: Refused) -> bool {
    let (line, column) = (refused.line as usize, refused.column as usize);
    let nowhere = refused.number <= 2;
    assert_eq!(line == 0, nowhere, "seed {seed}: {refused:?}");
    assert_eq!(column == 0, nowhere, "seed {seed}: {refused:?}");
    if nowhere {
        return false;
    }
    let offset = offset(text, line, column);
    assert!(offset < text.len(), "seed {seed}: {refused:?}");
    assert_eq!(place(text, offset), (line, column), "seed {seed}");
    let before = &text[start(text, line)..offset];
    assert!(before.is_ascii() && !before.contains(&b'\n'), "seed {seed}");
    true
}

#[test]
fn places_of_damaged_sheets_as_offsets_and_back() {
    let mut tally = Tally::new("places");
    for seed in seeds("places", 600_001..606_001) {
        let text = damage::damaged(seed, &small_sheet(seed, 30));
        let Some(refused) = refused(&text) else {
            continue;
        };
        let placed = has_place(seed, &text, refused);
        tally.count("no place", !placed);
        tally.count("a place on line 1", placed && refused.line == 1);
        tally.count("a place further down", placed && refused.line > 1);
        let at = |byte| {
            placed && text[offset(&text, refused.line as usize, refused.column as usize)] == byte
        };
        tally.count("a place at a line end", at(b'\n'));
    }
    tally.assert_each(4, 50);
}

fn samples() -> PathBuf {
    PathBuf::from(env!("CARGO_MANIFEST_DIR")).join("../../sheets")
}

#[test]
fn every_sample_gives_its_report() {
    let mut count = 0;
    for entry in std::fs::read_dir(samples()).expect("the folder of samples") {
        let path = entry.expect("a file").path();
        if path
            .extension()
            .is_some_and(|extension| extension == "sheet")
        {
            let text = std::fs::read(&path).expect("a sheet");
            let report = std::fs::read(path.with_extension("report")).expect("its report");
            assert_eq!(wharftoken::report(&text), report, "{}", path.display());
            count += 1;
        }
    }
    assert!(count >= 4, "{count} samples");
}

#[test]
fn the_worked_examples() {
    let sheet = |name: &str| std::fs::read(samples().join(name)).expect("a sample");
    for (name, line, column, expected, byte) in [
        ("line_too_short.sheet", 5, 4, 27, b'\n'),
        ("not_subscribed.sheet", 8, 5, 48, b'5'),
    ] {
        let text = sheet(name);
        let refused = refused(&text).expect(name);
        assert_eq!((refused.line, refused.column), (line, column), "{name}");
        assert!(has_place(0, &text, refused), "{name}");
        assert_eq!(
            offset(&text, line as usize, column as usize),
            expected,
            "{name}"
        );
        assert_eq!(text[expected], byte, "{name}");
    }
    let text = sheet("last_line_unended.sheet");
    assert_eq!(refused(&text), Some(Refused::nowhere(2)));
}

//! What the twin says that a call answers, with 13 "after everything else".

use crate::lent::{Found, Limited};
use twin::{Answer, Decisions, ItemLimits, Record, Refused, Sheet};

fn short(is_short: bool) -> Result<(), Refused> {
    Refused::nowhere(13).when(is_short)
}

/// The sheet of a record's bytes, refused as 12.
pub fn sheet(record: &[u8]) -> Result<Sheet, Refused> {
    let record = Record::from_bytes(record).ok_or(Refused::nowhere(12))?;
    record.sheet().ok_or(Refused::nowhere(12))
}

/// The decisions of a list's bytes, refused as 14.
fn decisions(list: &[u8]) -> Result<Decisions, Refused> {
    Decisions::from_bytes(list).ok_or(Refused::nowhere(14))
}

pub fn read(text: &[u8], length: usize) -> Result<Vec<u8>, Refused> {
    let sheet = twin::read(text)?;
    short(length < Record::BYTES)?;
    Ok(Record::of(&sheet).to_bytes())
}

pub fn write(record: &[u8], length: usize) -> Result<Vec<u8>, Refused> {
    let text = twin::write(&sheet(record)?);
    short(length < text.len())?;
    Ok(text)
}

pub fn limits(record: &[u8], list: &[u8], lengths: (usize, usize)) -> Result<Limited, Refused> {
    let sheet = sheet(record)?;
    let limits = twin::limits(&sheet, &decisions(list)?)?;
    short(lengths.0 < 96 || lengths.1 < 386)?;
    let four = |item: &ItemLimits| {
        let ItemLimits {
            kept_lower,
            kept_upper,
            dropped_lower,
            dropped_upper,
        } = *item;
        [kept_lower, kept_upper, dropped_lower, dropped_upper]
    };
    let items = limits.options.iter().chain(&limits.orderings);
    let mut numbers = vec![limits.lower, limits.upper];
    numbers.extend(items.flat_map(four));
    let forced = limits.decisions.to_bytes();
    Ok((limits.contradiction, forced, numbers))
}

pub fn sequence(record: &[u8], list: &[u8], length: usize) -> Result<(usize, Vec<u8>), Refused> {
    let places = twin::sequence(&sheet(record)?, &decisions(list)?)?;
    short(length < 32)?;
    let in_use = places.iter().filter(|&&number| number != 0).count();
    Ok((in_use, places.to_vec()))
}

/// The refusal of a search, if it is refused.
pub fn search_refused(record: &[u8], tolerance: u32, lengths: (usize, usize)) -> Option<Refused> {
    let refused = match Record::from_bytes(record) {
        Some(record) => twin::search_refused(&record, tolerance),
        None => Some(Refused::nowhere(12)),
    };
    refused.or_else(|| short(lengths.0 < 96 || lengths.1 < 2).err())
}

/// What the best relaxation of a small sheet is.
pub fn best(sheet: &Sheet) -> Found {
    let (decisions, value) = twin::best(sheet);
    (decisions.to_bytes(), [value, value])
}

/// A found relaxation as the twin judges it.
pub fn answer(found: &Found) -> Answer {
    let (list, [value, ceiling]) = found;
    Answer {
        decisions: Decisions::from_bytes(list).expect("decisions only"),
        value: *value,
        ceiling: *ceiling,
    }
}

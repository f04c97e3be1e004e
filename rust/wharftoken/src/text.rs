//! Sheets as text.

use crate::answer::Refusal;
use crate::raw;
use crate::record::Record;

/// The most bytes that an accepted sheet has: 512 lines of 10, 32 of 11, 64 of 15 and a trailer
/// of 14.
const LONGEST: usize = 6446;

/// The record of a sheet's text. Refused as 1 to 10, with its line and column.
pub fn read(text: &[u8]) -> Result<Record, Refusal> {
    let mut bytes = [0; raw::RECORD];
    raw::read(text, &mut bytes).accepted()?;
    Ok(Record::from_bytes(bytes))
}

/// The text of a record: the one text that is read as this record. Refused as 12.
pub fn write(record: &Record) -> Result<Vec<u8>, Refusal> {
    let mut out = vec![0; LONGEST];
    let length = raw::write(record.as_bytes(), &mut out).accepted()?;
    out.truncate(length);
    Ok(out)
}

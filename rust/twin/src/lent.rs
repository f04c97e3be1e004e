//! The calls as others see them: on records that may be no sheet, and on lent buffers. Each
//! refusal "changes no lent byte. On success, bytes past the written text stay as they were."

use crate::answer::MOST_TOLERANCE;
use crate::decisions::Decisions;
use crate::limits::{Limits, limits};
use crate::record::Record;
use crate::refused::Refused;
use crate::report::report;
use crate::sequence::sequence;
use crate::sheet::Sheet;
use crate::writing::write;

/// The sheet of a record, refused as 12: "a record that no accepted sheet gives".
fn sheet_of(record: &Record) -> Result<Sheet, Refused> {
    record.sheet().ok_or(Refused::nowhere(12))
}

/// The text at the start of the lent buffer and its length, refused as 13: "lent output shorter
/// than the text to be written".
fn lend(text: &[u8], output: &mut [u8]) -> Result<usize, Refused> {
    let Some(start) = output.get_mut(..text.len()) else {
        return Err(Refused::nowhere(13));
    };
    start.copy_from_slice(text);
    Ok(text.len())
}

/// "Writing a sheet: 12, 13." The length of the text.
pub fn write_into(record: &Record, output: &mut [u8]) -> Result<usize, Refused> {
    lend(&write(&sheet_of(record)?), output)
}

/// "Limits: 12, 14."
pub fn limits_of(record: &Record, decisions: &Decisions) -> Result<Limits, Refused> {
    limits(&sheet_of(record)?, decisions)
}

/// "Sequencing: 12, 14, 15."
pub fn sequence_of(
    record: &Record,
    decisions: &Decisions,
) -> Result<[u8; Sheet::OPTIONS], Refused> {
    sequence(&sheet_of(record)?, decisions)
}

/// "Search: 12, 11." The refusal of a search, if it is refused.
pub fn search_refused(record: &Record, tolerance: u32) -> Option<Refused> {
    let tolerable = Refused::nowhere(11).when(tolerance > MOST_TOLERANCE);
    sheet_of(record).and(tolerable).err()
}

/// "Only a buffer shorter than its text is refused, as 13, after everything else." The length of
/// the report; panics as [`report`] does.
pub fn report_into(text: &[u8], output: &mut [u8]) -> Result<usize, Refused> {
    lend(&report(text), output)
}

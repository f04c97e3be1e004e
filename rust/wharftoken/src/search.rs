//! The best relaxation.

use crate::answer::Refusal;
use crate::decisions::Decisions;
use crate::raw;
use crate::record::Record;

/// The largest possible value; a tolerance above it is refused as 11.
pub const MOST_TOLERANCE: u32 = 959_904;

/// A consistent relaxation that was found.
#[derive(Clone, Debug, PartialEq, Eq)]
pub struct Found {
    /// every option and every ordering of the sheet kept or dropped
    pub decisions: Decisions,
    /// the sum of the kept weights
    pub value: u32,
    /// no consistent relaxation is worth more; at most the tolerance above the value
    pub ceiling: u32,
}

/// A consistent relaxation whose value is within the tolerance of a ceiling; at tolerance 0 the
/// best one by the tie rule. Refused as 12 or 11.
pub fn search(record: &Record, tolerance: u32) -> Result<Found, Refusal> {
    let mut decisions = [0; raw::DECISIONS];
    let mut totals = [0; raw::TOTALS];
    raw::search(record.as_bytes(), tolerance, &mut decisions, &mut totals).accepted()?;
    let [value, ceiling] = totals;
    Ok(Found {
        decisions: Decisions::written(&decisions),
        value,
        ceiling,
    })
}

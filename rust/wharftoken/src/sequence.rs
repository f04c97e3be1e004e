//! The sequence of a chosen relaxation.

use crate::answer::Refusal;
use crate::decisions::Decisions;
use crate::raw;
use crate::record::Record;

/// The kept options in their places.
#[derive(Clone, Debug, PartialEq, Eq)]
pub struct Sequence(Vec<u8>);

impl Sequence {
    /// The catalogue number at a place, from 1; none past the last place.
    pub fn option_at(&self, place: usize) -> Option<u8> {
        self.0.get(place.checked_sub(1)?).copied()
    }

    /// The catalogue numbers from place 1 on.
    pub fn numbers(&self) -> &[u8] {
        &self.0
    }
}

/// The sequence of a full list of decisions. Refused as 12, 14 (an entry past the counts is
/// decided, or one of the sheet's is open) or 15 (what is kept is no consistent relaxation).
pub fn sequence(record: &Record, decisions: &Decisions) -> Result<Sequence, Refusal> {
    let mut places = vec![0; raw::PLACES];
    let answer = raw::sequence(record.as_bytes(), &decisions.to_bytes(), &mut places);
    let count = answer.accepted()?;
    places.truncate(count);
    Ok(Sequence(places))
}

//! What a half-decided sheet forces, and within which limits its value lies.

use crate::answer::Refusal;
use crate::decisions::Decisions;
use crate::raw;
use crate::record::Record;

/// The limits of one item; an item that is decided, by choice or by force, has four zeros.
#[derive(Clone, Copy, Debug, Default, PartialEq, Eq)]
pub struct ItemLimits {
    pub kept_lower: u32,
    pub kept_upper: u32,
    pub dropped_lower: u32,
    pub dropped_upper: u32,
}

/// Forced decisions and limits. Of a contradiction all decisions are open and all limits zero.
#[derive(Clone, Debug, PartialEq, Eq)]
pub struct Limits {
    /// whether no consistent relaxation agrees with the decisions
    pub contradiction: bool,
    /// the decisions given, and those that they force
    pub forced: Decisions,
    /// no consistent relaxation that agrees is worth less
    pub lower: u32,
    /// none is worth more
    pub upper: u32,
    /// in slot order
    pub options: [ItemLimits; 32],
    /// in slot order
    pub orderings: [ItemLimits; 64],
}

/// What these decisions force, and the limits that follow. Refused as 12 or 14.
pub fn limits(record: &Record, decisions: &Decisions) -> Result<Limits, Refusal> {
    let mut forced = [0; raw::DECISIONS];
    let mut numbers = [0; raw::LIMITS];
    let list = decisions.to_bytes();
    let answer = raw::limits(record.as_bytes(), &list, &mut forced, &mut numbers);
    let count = answer.accepted()?;
    let item = |index: usize| ItemLimits {
        kept_lower: numbers[2 + 4 * index],
        kept_upper: numbers[3 + 4 * index],
        dropped_lower: numbers[4 + 4 * index],
        dropped_upper: numbers[5 + 4 * index],
    };
    Ok(Limits {
        contradiction: count == 1,
        forced: Decisions::written(&forced),
        lower: numbers[0],
        upper: numbers[1],
        options: std::array::from_fn(item),
        orderings: std::array::from_fn(|index| item(32 + index)),
    })
}

//! Lists of decisions.

use crate::raw;

/// "Each option and each ordering is kept, dropped or open."
#[derive(Clone, Copy, Debug, Default, PartialEq, Eq)]
pub enum Decision {
    #[default]
    Open,
    Kept,
    Dropped,
}

impl Decision {
    fn byte(self) -> u8 {
        match self {
            Decision::Open => 0,
            Decision::Kept => 1,
            Decision::Dropped => 2,
        }
    }

    fn from_byte(byte: u8) -> Option<Decision> {
        match byte {
            0 => Some(Decision::Open),
            1 => Some(Decision::Kept),
            2 => Some(Decision::Dropped),
            _ => None,
        }
    }
}

/// A decision for each slot: that of slot 1 has index 0. Entries past the record's counts must be
/// open (refused as 14), and are open in every result.
#[derive(Clone, Copy, Debug, PartialEq, Eq)]
pub struct Decisions {
    /// by the order of the F lines
    pub options: [Decision; 32],
    /// by the order of the U lines
    pub orderings: [Decision; 64],
}

impl Decisions {
    /// The list that decides nothing.
    pub const OPEN: Decisions = Decisions {
        options: [Decision::Open; 32],
        orderings: [Decision::Open; 64],
    };

    /// The list as the library takes it: 32 options, then 64 orderings.
    pub fn to_bytes(&self) -> [u8; raw::DECISIONS] {
        let mut bytes = [0; raw::DECISIONS];
        let decisions = self.options.iter().chain(&self.orderings);
        for (byte, decision) in bytes.iter_mut().zip(decisions) {
            *byte = decision.byte();
        }
        bytes
    }

    /// The list that has these bytes, if each is 0, 1 or 2.
    pub fn from_bytes(bytes: &[u8; raw::DECISIONS]) -> Option<Decisions> {
        let mut list = Decisions::OPEN;
        let entries = list.options.iter_mut().chain(&mut list.orderings);
        for (entry, &byte) in entries.zip(bytes) {
            *entry = Decision::from_byte(byte)?;
        }
        Some(list)
    }

    /// The list in bytes that the library wrote.
    pub(crate) fn written(bytes: &[u8; raw::DECISIONS]) -> Decisions {
        Decisions::from_bytes(bytes).expect("the library writes 0, 1 and 2 only")
    }
}

//! What a caller gets back instead of a result.

/// "A refusal carries its number, its line and its column."
#[derive(Clone, Copy, Debug, PartialEq, Eq)]
pub struct Refused {
    pub number: u32,
    pub line: u32,
    pub column: u32,
}

impl Refused {
    /// A refusal at a line and a column, both from 1.
    pub fn at(number: u32, line: usize, column: usize) -> Refused {
        let small = |count: usize| u32::try_from(count).expect("a place in a short sheet");
        Refused {
            number,
            line: small(line),
            column: small(column),
        }
    }

    /// A refusal of the whole input: its place is 0, 0.
    pub fn nowhere(number: u32) -> Refused {
        Refused {
            number,
            line: 0,
            column: 0,
        }
    }

    /// `Err` of this refusal if the rule is broken.
    pub fn when(self, broken: bool) -> Result<(), Refused> {
        if broken { Err(self) } else { Ok(()) }
    }
}

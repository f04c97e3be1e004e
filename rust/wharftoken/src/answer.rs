//! What a call answers.

use std::error::Error;
use std::fmt;

/// The four numbers of an answer, as they stand in its 64 bits.
#[derive(Clone, Copy, Debug, PartialEq, Eq)]
pub struct Answer {
    /// 0 if the call succeeded, else the number of its refusal, 1 to 15
    pub number: u16,
    /// from 1; 0 where no place applies
    pub line: u16,
    /// from 1, in bytes; 0 where no place applies
    pub column: u16,
    /// what the call says it counts; 0 if it is refused
    pub count: u16,
}

impl Answer {
    /// From `count + 65536 * (column + 65536 * (line + 65536 * number))`.
    pub fn unpack(bits: u64) -> Answer {
        let part = |index: u32| (bits >> (16 * index)) as u16;
        Answer {
            number: part(3),
            line: part(2),
            column: part(1),
            count: part(0),
        }
    }

    /// The count of a call that succeeded, or its refusal.
    pub fn accepted(self) -> Result<usize, Refusal> {
        let Answer {
            number,
            line,
            column,
            count,
        } = self;
        match number {
            0 => Ok(usize::from(count)),
            _ => Err(Refusal {
                number,
                line,
                column,
            }),
        }
    }
}

/// Why a call was refused: a row of the table of refusals, and the place on the sheet.
#[derive(Clone, Copy, Debug, PartialEq, Eq)]
pub struct Refusal {
    /// 1 to 15
    pub number: u16,
    /// from 1; 0 where no place applies
    pub line: u16,
    /// from 1, in bytes, the line end included; 0 where no place applies
    pub column: u16,
}

impl fmt::Display for Refusal {
    /// As a report shows it: `E number line column`.
    fn fmt(&self, to: &mut fmt::Formatter) -> fmt::Result {
        write!(to, "E {} {} {}", self.number, self.line, self.column)
    }
}

impl Error for Refusal {}

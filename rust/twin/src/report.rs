//! The whole output of the reporting program.

use crate::best::best;
use crate::decisions::{Decision, Decisions};
use crate::reading::read;
use crate::refused::Refused;
use crate::sequence::sequence;
use crate::sheet::Sheet;

/// What the program prints for this input, the `E` line of a refused sheet too: "it reads one
/// sheet from standard input, searches at tolerance 0, and prints".
///
/// # Panics
/// If the sheet is accepted and has more than [`crate::MOST_ENUMERATED`] items.
pub fn report(text: &[u8]) -> Vec<u8> {
    match read(text) {
        Err(refused) => refusal_text(refused),
        Ok(sheet) => {
            let (decisions, value) = best(&sheet);
            report_text(&sheet, &decisions, value, value).expect("the best is consistent")
        }
    }
}

/// "A refused sheet prints only `E number line column`."
pub fn refusal_text(refused: Refused) -> Vec<u8> {
    format!("E {} {} {}\n", refused.number, refused.line, refused.column).into_bytes()
}

/// "`V value ceiling`; `S place option` for each place; `D option` for each dropped option and
/// `R a b` for each dropped ordering, both in slot order." Refused as sequencing refuses.
pub fn report_text(
    sheet: &Sheet,
    decisions: &Decisions,
    value: u32,
    ceiling: u32,
) -> Result<Vec<u8>, Refused> {
    let mut text = format!("V {value} {ceiling}\n");
    let places = sequence(sheet, decisions)?;
    for (index, number) in places.iter().take_while(|&&number| number != 0).enumerate() {
        text += &format!("S {} {number}\n", index + 1);
    }
    for (slot, option) in sheet.options.iter().enumerate() {
        if decisions.options[slot] == Decision::Dropped {
            text += &format!("D {}\n", option.number);
        }
    }
    for (slot, ordering) in sheet.orderings.iter().enumerate() {
        if decisions.orderings[slot] == Decision::Dropped {
            text += &format!("R {} {}\n", ordering.before, ordering.after);
        }
    }
    Ok(text.into_bytes())
}

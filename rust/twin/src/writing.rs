//! Writing a sheet: its lines in order, and the trailer that points back.

use crate::sheet::{Letter, Sheet};

/// The text of a sheet, the only one that is read as this sheet.
pub fn write(sheet: &Sheet) -> Vec<u8> {
    let mut text = String::new();
    for line in &sheet.catalogue {
        let letter = match line.letter {
            Letter::C => 'C',
            Letter::X => 'X',
        };
        text += &format!("{letter} {} {}\n", line.before, line.after);
    }
    for option in &sheet.options {
        text += &format!("F {} {}\n", option.number, option.weight);
    }
    for ordering in &sheet.orderings {
        text += &format!(
            "U {} {} {}\n",
            ordering.before, ordering.after, ordering.weight
        );
    }
    let f = sheet.catalogue.len() + 1;
    let u = f + sheet.options.len();
    let t = u + sheet.orderings.len();
    text += &format!("T {f} {u} {t}\n");
    text.into_bytes()
}

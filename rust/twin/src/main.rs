//! Reads one sheet from standard input and prints its report. With `read` it prints `accepted` or
//! the `E` line; with `limits` or `sequence` and a word of `k`, `d`, `o`, one letter for each
//! item, it prints what follows from these decisions.
#![forbid(unsafe_code)]

use std::io::{Read, Write};
use std::process::ExitCode;

use twin::{Decisions, ItemLimits, Limits, MOST_ENUMERATED, Refused, Sheet};

const USAGE: &str = "usage: twin [read | limits LETTERS | sequence LETTERS] < SHEET";

fn main() -> ExitCode {
    let words: Vec<String> = std::env::args().skip(1).collect();
    let words: Vec<&str> = words.iter().map(String::as_str).collect();
    let mut text = Vec::new();
    let read = std::io::stdin().read_to_end(&mut text);
    let printed = read
        .map_err(|error| error.to_string())
        .and_then(|_| answer(&words, &text));
    match printed {
        Ok(output) if std::io::stdout().write_all(&output).is_ok() => ExitCode::SUCCESS,
        Ok(_) => ExitCode::FAILURE,
        Err(message) => {
            eprintln!("{message}");
            ExitCode::FAILURE
        }
    }
}

/// What is printed for these words and this sheet.
fn answer(words: &[&str], text: &[u8]) -> Result<Vec<u8>, String> {
    let sheet = match twin::read(text) {
        Ok(sheet) => sheet,
        Err(refused) => return Ok(twin::refusal_text(refused)),
    };
    match words {
        [] if sheet.items() > MOST_ENUMERATED => Err(format!(
            "the twin searches sheets of at most {MOST_ENUMERATED} items"
        )),
        [] => Ok(twin::report(text)),
        ["read"] => Ok(b"accepted\n".to_vec()),
        ["limits", letters] => {
            let decisions = decisions(&sheet, letters)?;
            Ok(or_refusal(twin::limits(&sheet, &decisions), |found| {
                limits_text(&sheet, &found)
            }))
        }
        ["sequence", letters] => {
            let decisions = decisions(&sheet, letters)?;
            Ok(or_refusal(twin::sequence(&sheet, &decisions), |places| {
                sequence_text(&places)
            }))
        }
        _ => Err(USAGE.to_string()),
    }
}

fn decisions(sheet: &Sheet, letters: &str) -> Result<Decisions, String> {
    Decisions::from_letters(sheet, letters).ok_or_else(|| {
        format!(
            "the sheet has {} items: give k, d or o for each",
            sheet.items()
        )
    })
}

/// The text of a result, or the `E` line of its refusal.
fn or_refusal<T>(result: Result<T, Refused>, text: impl FnOnce(T) -> String) -> Vec<u8> {
    match result {
        Ok(found) => text(found).into_bytes(),
        Err(refused) => twin::refusal_text(refused),
    }
}

/// `contradiction`, or `whole lower upper` and for each item its slot, its decision (`k`, `d` or
/// `o`) and its limits: kept lower, kept upper, dropped lower, dropped upper.
fn limits_text(sheet: &Sheet, limits: &Limits) -> String {
    if limits.contradiction {
        return "contradiction\n".to_string();
    }
    let mut text = format!("whole {} {}\n", limits.lower, limits.upper);
    let letters = limits.decisions.letters(sheet);
    let (options, orderings) = letters.split_at(sheet.options.len());
    for (index, letter) in options.chars().enumerate() {
        text += &item_text("option", index + 1, letter, &limits.options[index]);
    }
    for (index, letter) in orderings.chars().enumerate() {
        text += &item_text("ordering", index + 1, letter, &limits.orderings[index]);
    }
    text
}

fn item_text(kind: &str, slot: usize, decision: char, limits: &ItemLimits) -> String {
    let ItemLimits {
        kept_lower,
        kept_upper,
        dropped_lower,
        dropped_upper,
    } = limits;
    format!("{kind} {slot} {decision} {kept_lower} {kept_upper} {dropped_lower} {dropped_upper}\n")
}

/// `place option` for each place that is not empty.
fn sequence_text(places: &[u8]) -> String {
    let placed = places.iter().take_while(|&&number| number != 0).enumerate();
    placed
        .map(|(index, number)| format!("{} {number}\n", index + 1))
        .collect()
}

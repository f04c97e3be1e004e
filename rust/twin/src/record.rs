//! A sheet as a struct of arrays, as others may hand it over: with entries that no sheet has.

use crate::sheet::{CatalogueLine, Letter, Ordering, Sheet, Subscription};

/// Arrays of the sheet's limits with counts of the used entries. All ends are catalogue numbers.
#[derive(Clone, Debug, PartialEq, Eq)]
pub struct Record {
    pub catalogue_count: usize,
    /// 0 unused, else the letter of the line as a byte
    pub letters: [u8; Sheet::CATALOGUE_LINES],
    pub befores: [u8; Sheet::CATALOGUE_LINES],
    pub afters: [u8; Sheet::CATALOGUE_LINES],
    pub option_count: usize,
    pub numbers: [u8; Sheet::OPTIONS],
    pub weights: [u16; Sheet::OPTIONS],
    pub ordering_count: usize,
    pub firsts: [u8; Sheet::ORDERINGS],
    pub seconds: [u8; Sheet::ORDERINGS],
    pub ordering_weights: [u16; Sheet::ORDERINGS],
}

impl Record {
    /// The all-zero record.
    pub fn empty() -> Record {
        Record {
            catalogue_count: 0,
            letters: [0; Sheet::CATALOGUE_LINES],
            befores: [0; Sheet::CATALOGUE_LINES],
            afters: [0; Sheet::CATALOGUE_LINES],
            option_count: 0,
            numbers: [0; Sheet::OPTIONS],
            weights: [0; Sheet::OPTIONS],
            ordering_count: 0,
            firsts: [0; Sheet::ORDERINGS],
            seconds: [0; Sheet::ORDERINGS],
            ordering_weights: [0; Sheet::ORDERINGS],
        }
    }

    /// The record that a sheet gives.
    pub fn of(sheet: &Sheet) -> Record {
        let mut record = Record::empty();
        record.catalogue_count = sheet.catalogue.len();
        for (index, line) in sheet.catalogue.iter().enumerate() {
            record.letters[index] = if line.letter == Letter::C { b'C' } else { b'X' };
            record.befores[index] = line.before;
            record.afters[index] = line.after;
        }
        record.option_count = sheet.options.len();
        for (index, option) in sheet.options.iter().enumerate() {
            record.numbers[index] = option.number;
            record.weights[index] = option.weight;
        }
        record.ordering_count = sheet.orderings.len();
        for (index, ordering) in sheet.orderings.iter().enumerate() {
            record.firsts[index] = ordering.before;
            record.seconds[index] = ordering.after;
            record.ordering_weights[index] = ordering.weight;
        }
        record
    }

    /// The sheet that gives this record, if one does.
    pub fn sheet(&self) -> Option<Sheet> {
        if !is_recorded(self) {
            return None;
        }
        let mut sheet = Sheet::default();
        for index in 0..self.catalogue_count {
            let letter = if self.letters[index] == b'C' {
                Letter::C
            } else {
                Letter::X
            };
            let (before, after) = (self.befores[index], self.afters[index]);
            sheet.catalogue.push(CatalogueLine {
                letter,
                before,
                after,
            });
        }
        for index in 0..self.option_count {
            let (number, weight) = (self.numbers[index], self.weights[index]);
            sheet.options.push(Subscription { number, weight });
        }
        for index in 0..self.ordering_count {
            let (before, after) = (self.firsts[index], self.seconds[index]);
            sheet.orderings.push(Ordering {
                before,
                after,
                weight: self.ordering_weights[index],
            });
        }
        Some(sheet)
    }
}

/// Whether an accepted sheet gives this record, "unused entries included (they are zero)".
pub fn is_recorded(record: &Record) -> bool {
    counts_fit(record)
        && catalogue_is_recorded(record)
        && options_are_recorded(record)
        && orderings_are_recorded(record)
}

fn counts_fit(record: &Record) -> bool {
    record.catalogue_count <= Sheet::CATALOGUE_LINES
        && record.option_count <= Sheet::OPTIONS
        && record.ordering_count <= Sheet::ORDERINGS
}

fn is_number(number: u8) -> bool {
    Sheet::NUMBERS.contains(&u32::from(number))
}

fn is_weight(weight: u16) -> bool {
    Sheet::WEIGHTS.contains(&u32::from(weight))
}

fn catalogue_is_recorded(record: &Record) -> bool {
    (0..Sheet::CATALOGUE_LINES).all(|index| {
        let line = (
            record.letters[index],
            record.befores[index],
            record.afters[index],
        );
        if index >= record.catalogue_count {
            return line == (0, 0, 0);
        }
        let (letter, before, after) = line;
        (letter == b'C' || letter == b'X')
            && is_number(before)
            && is_number(after)
            && before != after
    })
}

fn options_are_recorded(record: &Record) -> bool {
    (0..Sheet::OPTIONS).all(|index| {
        let (number, weight) = (record.numbers[index], record.weights[index]);
        if index >= record.option_count {
            return number == 0 && weight == 0;
        }
        is_number(number) && is_weight(weight) && !record.numbers[..index].contains(&number)
    })
}

fn orderings_are_recorded(record: &Record) -> bool {
    let subscribed = &record.numbers[..record.option_count];
    (0..Sheet::ORDERINGS).all(|index| {
        let pair = (record.firsts[index], record.seconds[index]);
        let weight = record.ordering_weights[index];
        if index >= record.ordering_count {
            return pair == (0, 0) && weight == 0;
        }
        let again = (0..index).any(|other| (record.firsts[other], record.seconds[other]) == pair);
        subscribed.contains(&pair.0)
            && subscribed.contains(&pair.1)
            && pair.0 != pair.1
            && is_weight(weight)
            && !again
    })
}

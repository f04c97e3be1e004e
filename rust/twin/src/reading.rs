//! Reading: "checks 1, 2, 3, then 6 (sections in order), then the lines from line 1".

use crate::refused::Refused;
use crate::shape::{Field, Section, Shape, fields};
use crate::sheet::{CatalogueLine, Letter, Ordering, Sheet, Subscription};

/// The sheet that a text writes down, or the first refusal in the order of ranks.
pub fn read(text: &[u8]) -> Result<Sheet, Refused> {
    Refused::nowhere(1).when(text.len() > Sheet::BYTES)?;
    let lines: Vec<&[u8]> = text.split_inclusive(|&byte| byte == b'\n').collect();
    let trailer = Trailer::read(&lines)?;
    trailer.refuse_long_sections()?;
    let mut sheet = Sheet::default();
    for (index, text) in lines[..lines.len() - 1].iter().enumerate() {
        let number = index + 1;
        let section = trailer.section(number);
        if let Some(column) = Shape::of(section).misfit(text) {
            return Err(Refused::at(4, number, column));
        }
        let (letter, fields) = (text[0], fields(text));
        let line = Line {
            number,
            letter,
            fields,
        };
        line.add_to(section, &mut sheet)?;
    }
    Ok(sheet)
}

/// "f is the line where the F section begins, u where the U section begins, t the trailer's own
/// line."
struct Trailer {
    f: usize,
    u: usize,
    t: usize,
}

impl Trailer {
    /// The trailer of these lines, refused as 2 or 3.
    fn read(lines: &[&[u8]]) -> Result<Trailer, Refused> {
        let Some(last) = lines.last() else {
            return Err(Refused::nowhere(2));
        };
        let shaped = last.ends_with(b"\n") && Shape::of(Section::Trailer).misfit(last).is_none();
        Refused::nowhere(2).when(!shaped)?;
        let numbers: Vec<usize> = fields(last)
            .iter()
            .map(|field| field.value as usize)
            .collect();
        let (f, u, t) = (numbers[0], numbers[1], numbers[2]);
        let points_back = 1 <= f && f <= u && u <= t && t == lines.len();
        Refused::at(3, lines.len(), 1).when(!points_back)?;
        Ok(Trailer { f, u, t })
    }

    /// 6: "a section has too many lines", at the "first line too many, 1".
    fn refuse_long_sections(&self) -> Result<(), Refused> {
        let sections = [
            (1, self.f, Sheet::CATALOGUE_LINES),
            (self.f, self.u, Sheet::OPTIONS),
            (self.u, self.t, Sheet::ORDERINGS),
        ];
        for (first, next, most) in sections {
            Refused::at(6, first + most, 1).when(next - first > most)?;
        }
        Ok(())
    }

    /// The section in which a line stands.
    fn section(&self, line: usize) -> Section {
        match line {
            _ if line < self.f => Section::Catalogue,
            _ if line < self.u => Section::Options,
            _ if line < self.t => Section::Orderings,
            _ => Section::Trailer,
        }
    }
}

/// A well-shaped line. "In one line the order is 4, 5, 8, 7, 9, 10."
struct Line {
    number: usize,
    letter: u8,
    fields: Vec<Field>,
}

impl Line {
    /// A refusal at a field of this line.
    fn at(&self, refusal: u32, field: usize) -> Refused {
        Refused::at(refusal, self.number, self.fields[field].column)
    }

    /// 5: "option number or weight outside its range", at "the number's first digit". The first
    /// fields are option numbers, the rest are weights.
    fn refuse_ranges(&self, option_numbers: usize) -> Result<(), Refused> {
        for (index, field) in self.fields.iter().enumerate() {
            let range = if index < option_numbers {
                Sheet::NUMBERS
            } else {
                Sheet::WEIGHTS
            };
            self.at(5, index).when(!range.contains(&field.value))?;
        }
        Ok(())
    }

    /// 8: "C, X or U names one option twice", at the "second number".
    fn refuse_one_option_twice(&self) -> Result<(), Refused> {
        self.at(8, 1)
            .when(self.fields[0].value == self.fields[1].value)
    }

    /// An option number that lies in its range.
    fn option_number(&self, field: usize) -> u8 {
        u8::try_from(self.fields[field].value).expect("an option number in its range")
    }

    /// A weight that lies in its range.
    fn weight(&self, field: usize) -> u16 {
        u16::try_from(self.fields[field].value).expect("a weight in its range")
    }

    /// Adds what the line says to the sheet, or refuses the line.
    fn add_to(&self, section: Section, sheet: &mut Sheet) -> Result<(), Refused> {
        match section {
            Section::Catalogue => self.add_to_catalogue(sheet),
            Section::Options => self.add_option(sheet),
            Section::Orderings => self.add_ordering(sheet),
            Section::Trailer => Ok(()),
        }
    }

    fn add_to_catalogue(&self, sheet: &mut Sheet) -> Result<(), Refused> {
        self.refuse_ranges(2)?;
        self.refuse_one_option_twice()?;
        let letter = if self.letter == b'C' {
            Letter::C
        } else {
            Letter::X
        };
        let (before, after) = (self.option_number(0), self.option_number(1));
        sheet.catalogue.push(CatalogueLine {
            letter,
            before,
            after,
        });
        Ok(())
    }

    /// 7: "option subscribed twice", at the "number on the later line".
    fn add_option(&self, sheet: &mut Sheet) -> Result<(), Refused> {
        self.refuse_ranges(1)?;
        let number = self.option_number(0);
        self.at(7, 0).when(sheet.slot(number).is_some())?;
        sheet.options.push(Subscription {
            number,
            weight: self.weight(1),
        });
        Ok(())
    }

    /// 9: "U names an option not subscribed", at the "first such number"; 10: "the same U pair
    /// again", at the "later line, 1".
    fn add_ordering(&self, sheet: &mut Sheet) -> Result<(), Refused> {
        self.refuse_ranges(2)?;
        self.refuse_one_option_twice()?;
        let (before, after) = (self.option_number(0), self.option_number(1));
        self.at(9, 0).when(sheet.slot(before).is_none())?;
        self.at(9, 1).when(sheet.slot(after).is_none())?;
        let again = sheet
            .orderings
            .iter()
            .any(|one| (one.before, one.after) == (before, after));
        Refused::at(10, self.number, 1).when(again)?;
        sheet.orderings.push(Ordering {
            before,
            after,
            weight: self.weight(2),
        });
        Ok(())
    }
}

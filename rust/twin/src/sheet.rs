//! The order sheet as a value.

/// `C` or `X`, the first letter of a catalogue line.
#[derive(Clone, Copy, Debug, PartialEq, Eq)]
pub enum Letter {
    /// "a comes before b if both are kept"
    C,
    /// "a and b are never kept together"
    X,
}

/// `C a b` or `X a b`; the ends are catalogue numbers.
#[derive(Clone, Copy, Debug, PartialEq, Eq)]
pub struct CatalogueLine {
    pub letter: Letter,
    pub before: u8,
    pub after: u8,
}

/// `F a w`: "option a is subscribed with weight w".
#[derive(Clone, Copy, Debug, PartialEq, Eq)]
pub struct Subscription {
    pub number: u8,
    pub weight: u16,
}

/// `U a b w`: "the owner asks for a before b, with weight w".
#[derive(Clone, Copy, Debug, PartialEq, Eq)]
pub struct Ordering {
    pub before: u8,
    pub after: u8,
    pub weight: u16,
}

/// One order sheet; options and orderings stand in slot order.
#[derive(Clone, Debug, Default, PartialEq, Eq)]
pub struct Sheet {
    pub catalogue: Vec<CatalogueLine>,
    pub options: Vec<Subscription>,
    pub orderings: Vec<Ordering>,
}

impl Sheet {
    /// "Limits that belong to the sheet: 8,192 bytes"
    pub const BYTES: usize = 8192;
    /// "512 catalogue lines"
    pub const CATALOGUE_LINES: usize = 512;
    /// "32 F lines"
    pub const OPTIONS: usize = 32;
    /// "64 U lines"
    pub const ORDERINGS: usize = 64;
    /// "option numbers 1 to 250"
    pub const NUMBERS: std::ops::RangeInclusive<u32> = 1..=250;
    /// "weights 0 to 9,999"
    pub const WEIGHTS: std::ops::RangeInclusive<u32> = 0..=9999;

    /// How many options and orderings the sheet has together.
    pub fn items(&self) -> usize {
        self.options.len() + self.orderings.len()
    }

    /// The slot, from 0, of the option with this catalogue number, if it is subscribed.
    pub fn slot(&self, number: u8) -> Option<usize> {
        self.options
            .iter()
            .position(|option| option.number == number)
    }

    /// The slots, from 0, of both options of an ordering.
    pub fn ends(&self, ordering: &Ordering) -> (usize, usize) {
        let end = |number| {
            self.slot(number)
                .expect("an ordering names subscribed options")
        };
        (end(ordering.before), end(ordering.after))
    }

    /// "The catalogue precedences between subscribed options", as slots from 0; "an exclusion
    /// counts as two opposite precedences".
    pub fn precedences(&self) -> Vec<(usize, usize)> {
        let mut found = Vec::new();
        for line in &self.catalogue {
            if let (Some(before), Some(after)) = (self.slot(line.before), self.slot(line.after)) {
                found.push((before, after));
                if line.letter == Letter::X {
                    found.push((after, before));
                }
            }
        }
        found
    }

    /// "M is the weight of everything."
    pub fn weight_of_everything(&self) -> u32 {
        let options: u32 = self
            .options
            .iter()
            .map(|option| u32::from(option.weight))
            .sum();
        let orderings: u32 = self.orderings.iter().map(|one| u32::from(one.weight)).sum();
        options + orderings
    }
}

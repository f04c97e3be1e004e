//! A record as 1,894 bytes, little-endian, and a list of decisions as 96.

use crate::decisions::{Decision, Decisions};
use crate::record::Record;

impl Record {
    /// How many bytes a record has.
    pub const BYTES: usize = 1894;

    /// The counts, the weights, then the arrays of bytes.
    pub fn to_bytes(&self) -> Vec<u8> {
        let count = |count: usize| u16::try_from(count).expect("a count of 16 bits");
        let mut bytes = Vec::with_capacity(Record::BYTES);
        let counts = [self.catalogue_count, self.option_count, self.ordering_count];
        let weights = self.weights.iter().chain(&self.ordering_weights).copied();
        for number in counts.into_iter().map(count).chain(weights) {
            bytes.extend(number.to_le_bytes());
        }
        bytes.extend(self.letters.iter().chain(&self.befores).chain(&self.afters));
        bytes.extend(self.numbers.iter().chain(&self.firsts).chain(&self.seconds));
        bytes
    }

    /// The record that has these bytes, whether or not a sheet gives it; none if the length is
    /// another.
    pub fn from_bytes(bytes: &[u8]) -> Option<Record> {
        if bytes.len() != Record::BYTES {
            return None;
        }
        let mut rest = bytes;
        let [catalogue_count, option_count, ordering_count] = numbers(&mut rest).map(usize::from);
        Some(Record {
            catalogue_count,
            option_count,
            ordering_count,
            weights: numbers(&mut rest),
            ordering_weights: numbers(&mut rest),
            letters: taken(&mut rest),
            befores: taken(&mut rest),
            afters: taken(&mut rest),
            numbers: taken(&mut rest),
            firsts: taken(&mut rest),
            seconds: taken(&mut rest),
        })
    }
}

/// The next bytes.
fn taken<const COUNT: usize>(rest: &mut &[u8]) -> [u8; COUNT] {
    let (taken, left) = rest.split_at(COUNT);
    *rest = left;
    taken.try_into().expect("so many bytes")
}

/// The next numbers of two bytes each.
fn numbers<const COUNT: usize>(rest: &mut &[u8]) -> [u16; COUNT] {
    std::array::from_fn(|_| u16::from_le_bytes(taken(rest)))
}

impl Decisions {
    /// 32 options, then 64 orderings: 0 open, 1 kept, 2 dropped.
    pub fn to_bytes(&self) -> Vec<u8> {
        let byte = |decision: &Decision| match decision {
            Decision::Open => 0,
            Decision::Kept => 1,
            Decision::Dropped => 2,
        };
        self.options
            .iter()
            .chain(&self.orderings)
            .map(byte)
            .collect()
    }

    /// The list that has these bytes; none if one is no decision or the length is another.
    pub fn from_bytes(bytes: &[u8]) -> Option<Decisions> {
        let decision = |byte: &u8| match byte {
            0 => Some(Decision::Open),
            1 => Some(Decision::Kept),
            2 => Some(Decision::Dropped),
            _ => None,
        };
        let all: Option<Vec<Decision>> = bytes.iter().map(decision).collect();
        let all = all.filter(|all| all.len() == 96)?;
        Some(Decisions {
            options: all[..32].try_into().expect("32 options"),
            orderings: all[32..].try_into().expect("64 orderings"),
        })
    }
}

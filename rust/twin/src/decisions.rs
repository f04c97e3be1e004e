//! Half-decided and decided sheets.

use crate::refused::Refused;
use crate::sheet::Sheet;

/// "Each option and each ordering is kept, dropped or open."
#[derive(Clone, Copy, Debug, Default, PartialEq, Eq)]
pub enum Decision {
    /// "open is what an all-zero result shows"
    #[default]
    Open,
    Kept,
    Dropped,
}

/// A decision for every slot; entries past the sheet's counts are open in every result.
#[derive(Clone, Copy, Debug, PartialEq, Eq)]
pub struct Decisions {
    pub options: [Decision; Sheet::OPTIONS],
    pub orderings: [Decision; Sheet::ORDERINGS],
}

impl Decisions {
    /// The list that decides nothing.
    pub fn open() -> Decisions {
        Decisions {
            options: [Decision::Open; Sheet::OPTIONS],
            orderings: [Decision::Open; Sheet::ORDERINGS],
        }
    }

    /// The decisions of the items of a sheet, options first, both in slot order.
    pub fn items(&self, sheet: &Sheet) -> Vec<Decision> {
        let options = &self.options[..sheet.options.len()];
        [options, &self.orderings[..sheet.orderings.len()]].concat()
    }

    /// The list with these decisions for the items of a sheet, and open past them.
    pub fn from_items(sheet: &Sheet, items: &[Decision]) -> Decisions {
        assert_eq!(items.len(), sheet.items(), "a decision for each item");
        let (options, orderings) = items.split_at(sheet.options.len());
        let mut list = Decisions::open();
        list.options[..options.len()].copy_from_slice(options);
        list.orderings[..orderings.len()].copy_from_slice(orderings);
        list
    }

    /// The list that a word of `k`, `d` and `o` gives, one letter for each item of the sheet.
    pub fn from_letters(sheet: &Sheet, letters: &str) -> Option<Decisions> {
        let items: Option<Vec<Decision>> = letters
            .bytes()
            .map(|letter| match letter {
                b'k' => Some(Decision::Kept),
                b'd' => Some(Decision::Dropped),
                b'o' => Some(Decision::Open),
                _ => None,
            })
            .collect();
        let items = items.filter(|items| items.len() == sheet.items())?;
        Some(Decisions::from_items(sheet, &items))
    }

    /// One letter for each item of the sheet: `k`, `d` or `o`.
    pub fn letters(&self, sheet: &Sheet) -> String {
        let letter = |decision: &Decision| match decision {
            Decision::Kept => 'k',
            Decision::Dropped => 'd',
            Decision::Open => 'o',
        };
        self.items(sheet).iter().map(letter).collect()
    }

    /// 14: "decision list not open at an entry past the record's counts".
    pub fn refuse_past_counts(&self, sheet: &Sheet) -> Result<(), Refused> {
        let open = |past: &[Decision]| past.iter().all(|&decision| decision == Decision::Open);
        let past_open = open(&self.options[sheet.options.len()..])
            && open(&self.orderings[sheet.orderings.len()..]);
        Refused::nowhere(14).when(!past_open)
    }

    /// 14: "or open where all must be decided".
    pub fn refuse_undecided(&self, sheet: &Sheet) -> Result<(), Refused> {
        Refused::nowhere(14).when(self.items(sheet).contains(&Decision::Open))
    }
}

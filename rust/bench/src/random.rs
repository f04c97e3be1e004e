//! A generator of numbers whose seeds stand in `docs/BENCH.md`.

/// SplitMix64.
pub struct Random(u64);

impl Random {
    /// The numbers of one sheet of a class.
    pub fn of_sheet(seed: u64, sheet: usize) -> Random {
        let start = seed.wrapping_mul(1_000_003).wrapping_add(sheet as u64);
        Random(start.wrapping_mul(0x2545_F491_4F6C_DD1D))
    }

    fn next(&mut self) -> u64 {
        self.0 = self.0.wrapping_add(0x9E37_79B9_7F4A_7C15);
        let mut z = self.0;
        z = (z ^ (z >> 30)).wrapping_mul(0xBF58_476D_1CE4_E5B9);
        z = (z ^ (z >> 27)).wrapping_mul(0x94D0_49BB_1331_11EB);
        z ^ (z >> 31)
    }

    /// Each number below `end` is equally likely.
    pub fn below(&mut self, end: usize) -> usize {
        let end = end as u64;
        let whole = u64::MAX - u64::MAX % end;
        loop {
            let x = self.next();
            if x < whole {
                return (x % end) as usize;
            }
        }
    }

    /// A weight from 1 to `most`.
    pub fn weight(&mut self, most: u16) -> u16 {
        1 + self.below(usize::from(most)) as u16
    }

    /// `count` different numbers below `end`.
    pub fn sample(&mut self, end: usize, count: usize) -> Vec<usize> {
        let mut all: Vec<usize> = (0..end).collect();
        for i in 0..count {
            let j = i + self.below(end - i);
            all.swap(i, j);
        }
        all.truncate(count);
        all
    }
}

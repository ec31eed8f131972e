//! Random numbers from a seed, the same on every machine (SplitMix64).

use std::ops::RangeInclusive;

pub struct Random {
    state: u64,
}

impl Random {
    pub fn from_seed(seed: u64) -> Self {
        Random { state: seed }
    }

    pub fn bits(&mut self) -> u64 {
        self.state = self.state.wrapping_add(0x9e37_79b9_7f4a_7c15);
        let mut z = self.state;
        z = (z ^ (z >> 30)).wrapping_mul(0xbf58_476d_1ce4_e5b9);
        z = (z ^ (z >> 27)).wrapping_mul(0x94d0_49bb_1331_11eb);
        z ^ (z >> 31)
    }

    /// A number from 0 to `count` - 1.
    pub fn below(&mut self, count: usize) -> usize {
        (self.bits() % count as u64) as usize
    }

    /// True once in `count` times.
    pub fn once_in(&mut self, count: usize) -> bool {
        self.below(count) == 0
    }

    pub fn of<T: Copy>(&mut self, choices: &[T]) -> T {
        choices[self.below(choices.len())]
    }

    /// Every number of the range alike.
    pub fn even(&mut self, range: RangeInclusive<i64>) -> i64 {
        let (low, high) = range.into_inner();
        low + (self.bits() % (high - low + 1) as u64) as i64
    }

    /// Every size of number of the range alike, its ends more often.
    pub fn spread(&mut self, range: RangeInclusive<i64>) -> i64 {
        let (low, high) = range.into_inner();
        match self.below(8) {
            0 => low,
            1 => high,
            2 | 3 => self.even(low..=high),
            _ => {
                let size = self.bits() >> self.even(34..=63);
                let sign = if low < 0 { self.of(&[-1, 1]) } else { 1 };
                (sign * size as i64).clamp(low, high)
            }
        }
    }
}

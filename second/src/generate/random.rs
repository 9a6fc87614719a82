//! A small generator of pseudo-random numbers (splitmix64), the same on every
//! machine.

use std::ops::RangeInclusive;

#[derive(Clone, Debug)]
pub struct Random {
    state: u64,
}

impl Random {
    pub fn new(seed: u64) -> Random {
        Random { state: seed }
    }

    pub fn bits(&mut self) -> u64 {
        self.state = self.state.wrapping_add(0x9e37_79b9_7f4a_7c15);
        let mut mixed = self.state;
        mixed = (mixed ^ (mixed >> 30)).wrapping_mul(0xbf58_476d_1ce4_e5b9);
        mixed = (mixed ^ (mixed >> 27)).wrapping_mul(0x94d0_49bb_1331_11eb);
        mixed ^ (mixed >> 31)
    }

    /// A number below the limit, which is above 0.
    pub fn below(&mut self, limit: usize) -> usize {
        let limit = limit as u128;
        ((u128::from(self.bits()) * limit) >> 64) as usize
    }

    /// A number of the range, each about as likely as another.
    pub fn within(&mut self, range: RangeInclusive<i128>) -> i128 {
        let width = (range.end() - range.start() + 1) as u128;
        let offset = (u128::from(self.bits()) * width) >> 64;
        range.start() + offset as i128
    }

    /// Like [`Random::within`], for counts and prices.
    pub fn count(&mut self, range: RangeInclusive<i64>) -> i64 {
        self.within(i128::from(*range.start())..=i128::from(*range.end())) as i64
    }

    /// A number of the range, often at an end of it or next to one.
    pub fn edge(&mut self, range: RangeInclusive<i128>) -> i128 {
        let (low, high) = (*range.start(), *range.end());
        match self.below(8) {
            0 => low,
            1 => high,
            2 => (low + 1).min(high),
            3 => (high - 1).max(low),
            4 => low + self.magnitude(high - low),
            5 => high - self.magnitude(high - low),
            _ => self.within(range),
        }
    }

    /// Like [`Random::edge`], for counts and prices.
    pub fn edge_count(&mut self, range: RangeInclusive<i64>) -> i64 {
        self.edge(i128::from(*range.start())..=i128::from(*range.end())) as i64
    }

    /// A number from 0 to the limit, each length in bits as likely as another.
    fn magnitude(&mut self, limit: i128) -> i128 {
        let bits = 128 - limit.leading_zeros() as usize;
        let top = (1i128 << self.below(bits + 1)) - 1;
        self.within(0..=top.min(limit))
    }

    /// True about so many times in a hundred.
    pub fn chance(&mut self, percent: usize) -> bool {
        self.below(100) < percent
    }

    pub fn pick<'a, T>(&mut self, choices: &'a [T]) -> &'a T {
        &choices[self.below(choices.len())]
    }
}

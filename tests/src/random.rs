//! SplitMix64: a small generator that gives the same inputs in every run.

use std::ops::RangeInclusive;

pub struct Random {
    state: u64,
}

impl Random {
    pub fn new(seed: u64) -> Random {
        Random { state: seed }
    }

    pub fn bits(&mut self) -> u64 {
        self.state = self.state.wrapping_add(0x9E37_79B9_7F4A_7C15);
        let mut z = self.state;
        z = (z ^ (z >> 30)).wrapping_mul(0xBF58_476D_1CE4_E5B9);
        z = (z ^ (z >> 27)).wrapping_mul(0x94D0_49BB_1331_11EB);
        z ^ (z >> 31)
    }

    /// A number of the range, each about as likely as any other.
    pub fn within(&mut self, range: RangeInclusive<u32>) -> u32 {
        let many = u64::from(range.end() - range.start()) + 1;
        let above = ((self.bits() >> 32) * many) >> 32;
        range.start() + above as u32
    }

    /// A signed number of the range.
    pub fn signed_within(&mut self, range: RangeInclusive<i32>) -> i32 {
        let above = self.within(0..=range.end().abs_diff(*range.start()));
        range.start().wrapping_add_unsigned(above)
    }

    /// A number of the range, one at or just beyond an edge of it, or anything.
    pub fn in_or_out_of(&mut self, range: RangeInclusive<u32>) -> u32 {
        let (&least, &greatest) = (range.start(), range.end());
        match self.within(0..=9) {
            0 => self.one_of(&[least - 1, least, greatest, greatest + 1]),
            1 => self.bits() as u32,
            _ => self.within(range),
        }
    }

    /// True once in so many times.
    pub fn once_in(&mut self, times: u32) -> bool {
        self.within(1..=times) == 1
    }

    /// A number from 1 to `greatest`, small ones as likely as great ones: first a limit is drawn by its number of bits.
    pub fn of_any_size(&mut self, greatest: u32) -> u32 {
        let limit = greatest >> self.within(0..=greatest.ilog2());
        self.within(1..=limit)
    }

    /// A list of random numbers, each cut down from random bits.
    pub fn list<T>(&mut self, places: usize, cut: impl Fn(u64) -> T) -> Vec<T> {
        (0..places).map(|_| cut(self.bits())).collect()
    }

    pub fn one_of<T: Copy>(&mut self, choices: &[T]) -> T {
        choices[self.within(0..=choices.len() as u32 - 1) as usize]
    }
}

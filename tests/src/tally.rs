//! Counts of answers by kind and of marks by bit, so that a test can say that it met each.

use std::collections::BTreeMap;

use crate::reference::Answer;

#[derive(Default)]
pub struct Tally {
    numbers: usize,
    refusals: BTreeMap<u32, usize>,
}

impl Tally {
    pub fn count(&mut self, answer: Answer) {
        match answer {
            Ok(_) => self.numbers += 1,
            Err(refusal) => *self.refusals.entry(refusal).or_default() += 1,
        }
    }

    pub fn numbers(&self) -> usize {
        self.numbers
    }

    pub fn refused(&self, number: u32) -> usize {
        self.refusals.get(&number).copied().unwrap_or(0)
    }
}

/// How many marks have each of the eight bits.
#[derive(Default)]
pub struct Bits(pub [usize; 8]);

impl Bits {
    pub fn count(&mut self, marks: &[u8]) {
        for (bit, many) in self.0.iter_mut().enumerate() {
            *many += marks.iter().filter(|&&mark| mark >> bit & 1 == 1).count();
        }
    }
}

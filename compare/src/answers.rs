//! How often each answer was given.

use std::fmt;
use std::ops::RangeInclusive;

/// The refusals have the numbers 1 to 16.
const REFUSALS: usize = 16;
/// Of them, those that a call itself gives to a line.
const OWN: RangeInclusive<usize> = 2..=13;

#[derive(Default)]
pub struct Answers {
    accepted: u64,
    refused: [u64; REFUSALS + 1],
}

impl Answers {
    /// Counts a value, or the negative number of a refusal.
    pub fn add(&mut self, answer: i64) {
        match answer {
            0.. => self.accepted += 1,
            _ => self.refused[answer.unsigned_abs() as usize] += 1,
        }
    }

    pub fn accepted(&self) -> u64 {
        self.accepted
    }

    /// How often this refusal was given.
    pub fn refused(&self, number: usize) -> u64 {
        self.refused[number]
    }

    /// How often a call itself refused.
    pub fn refused_by_call(&self) -> u64 {
        self.refused[OWN].iter().sum()
    }

    pub fn total(&self) -> u64 {
        self.accepted + self.refused.iter().sum::<u64>()
    }
}

/// The accepted, and each refusal that was given with its count.
impl fmt::Display for Answers {
    fn fmt(&self, to: &mut fmt::Formatter) -> fmt::Result {
        write!(to, "{} accepted, {} refused", self.accepted, self.total() - self.accepted)?;
        for (number, count) in self.refused.iter().enumerate().filter(|(_, count)| **count > 0) {
            write!(to, "; {number}: {count}")?;
        }
        Ok(())
    }
}

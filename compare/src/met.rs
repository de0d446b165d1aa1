//! What random lines met that seldom occurs by chance, and how often they must.

use crate::requests::request_of;
use crate::tally::Tally;
use crate::{borders, comparisons, contexts};
use reference::generate::{Borders, Comparisons};
use reference::Register;

/// The ticks where a life begins or ends, pairs that are nearly alike, and
/// contexts that decide.
#[derive(Default)]
pub struct Met {
    borders: Borders,
    comparisons: Comparisons,
    contexts: contexts::Met,
}

/// How often they must be met.
pub struct Least {
    pub borders: borders::Least,
    pub comparisons: comparisons::Least,
    pub contexts: contexts::Least,
}

impl Least {
    /// So many times as often.
    pub fn times(&self, factor: u64) -> Least {
        Least {
            borders: self.borders.map(|row| row.map(|least| factor * least)),
            comparisons: self.comparisons.times(factor),
            contexts: self.contexts.times(factor),
        }
    }
}

impl Met {
    /// Counts what the line meets on the register, before it is performed.
    pub fn add(&mut self, register: &Register, line: &[u8]) {
        let Some(request) = request_of(line) else {
            return self.contexts.add_malformed(line);
        };
        self.borders.add(register, &request);
        self.comparisons.add(register, &request);
        self.contexts.contexts.add(register, &request);
    }

    /// Prints the counts, and makes a failure of each that is too small.
    pub fn require(&self, tally: &mut Tally, least: &Least) {
        borders::require(tally, &self.borders, &least.borders);
        comparisons::require(tally, &self.comparisons, &least.comparisons);
        self.contexts.require(tally, &least.contexts);
    }
}

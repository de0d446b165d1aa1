//! What passed and what failed.

use std::process::ExitCode;

/// So many differences are printed; those after them are only counted.
const PRINTED: u64 = 10;

#[derive(Default)]
pub struct Tally {
    passed: u64,
    failed: u64,
}

impl Tally {
    /// Plays each seed below `end`, up to its first difference, and counts it
    /// once.
    pub fn play(&mut self, end: u64, mut play: impl FnMut(u64) -> Result<(), String>) {
        for seed in 0..end {
            match play(seed) {
                Ok(()) => self.passed += 1,
                Err(difference) => {
                    if self.failed < PRINTED {
                        println!("seed {seed}: {difference}");
                    }
                    self.failed += 1;
                }
            }
        }
    }

    /// One more failure if something never occurred: then too little was
    /// compared.
    pub fn require(&mut self, occurred: bool, what: &str) {
        if !occurred {
            println!("this never occurred: {what}");
            self.failed += 1;
        }
    }

    /// One more failure if something occurred less often than it must.
    pub fn require_often(&mut self, occurred: u64, least: u64, what: &str) {
        if occurred < least {
            println!("this occurred {occurred} times, of at least {least}: {what}");
            self.failed += 1;
        }
    }

    /// Prints the closing line.
    pub fn finish(&self) -> ExitCode {
        println!("{} passed, {} failed", self.passed, self.failed);
        ExitCode::from(u8::from(self.failed != 0))
    }
}

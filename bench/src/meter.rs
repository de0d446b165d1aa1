//! Measures contenders: either each makes one call for the instruction
//! counter, or they are timed, and the counts of the former run are read.

use crate::clock::{median, ratio, samples};
use crate::contender::{measured_call, Contender};
use std::fs;
use std::path::PathBuf;

pub enum Meter {
    Counting,
    /// The folder of the counts, and how many of them were read.
    Timing(PathBuf, usize),
}

/// The samples and counts of some contenders, in their order.
pub struct Measured {
    samples: Vec<Vec<f64>>,
    counts: Vec<Option<f64>>,
}

impl Meter {
    pub fn measure(&mut self, mut contenders: Vec<Box<dyn Contender>>) -> Measured {
        let number = contenders.len();
        match self {
            Meter::Counting => {
                contenders.iter_mut().for_each(|contender| count(contender.as_mut()));
                Measured { samples: vec![vec![1.0]; number], counts: vec![None; number] }
            }
            Meter::Timing(folder, read) => {
                let paths = (1..=number).map(|at| folder.join(format!("calls.{}", *read + at)));
                let counts = paths.map(total).collect();
                *read += number;
                Measured { samples: samples(&mut contenders), counts }
            }
        }
    }
}

/// One call to warm up, and one to be counted.
fn count(contender: &mut dyn Contender) {
    contender.call();
    contender.undo();
    measured_call(contender);
    contender.undo();
}

/// The number of instructions in a file of callgrind; none without the file.
pub fn total(path: PathBuf) -> Option<f64> {
    let text = fs::read_to_string(path).ok()?;
    let line = text.lines().find_map(|line| line.strip_prefix("totals: "))?;
    line.trim().parse().ok()
}

impl Measured {
    /// The contender's time in microseconds.
    pub fn time(&self, at: usize) -> f64 {
        median(&self.samples[at]) / 1_000.0
    }

    /// The contender's instructions.
    pub fn count(&self, at: usize) -> Option<f64> {
        self.counts[at]
    }

    /// How often the second contender's time goes into the first one's.
    pub fn time_ratio(&self, over: usize, under: usize) -> f64 {
        ratio(&self.samples[over], &self.samples[under])
    }

    /// How often the second contender's instructions go into the first one's.
    pub fn count_ratio(&self, over: usize, under: usize) -> Option<f64> {
        Some(self.counts[over]? / self.counts[under]?)
    }
}

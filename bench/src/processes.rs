//! The tables of the journal programs, run as processes in turn.

use crate::clock::{median, ratio, sample};
use crate::entry::ShopCheck;
use crate::journals::{CHECKS, NAMES};
use crate::meter::total;
use crate::table::{count, head, micros, row, times};
use std::fs::{self, File};
use std::path::Path;
use std::process::{Command, Stdio};
use std::time::Instant;

const ROUNDS: usize = 101;
/// For the difference between two journals, which is small.
const CHECK_ROUNDS: usize = 301;
const PROGRAMS: [&str; 3] = ["proved", "reference", "tested_once"];

pub fn print_all(folder: &Path, shop: Option<ShopCheck>) {
    head(
        "Journals as processes",
        &[
            "journal",
            "bytes",
            "lines",
            "ms",
            "instructions",
            "time / reference",
            "instructions / reference",
            "time / tested once",
            "instructions / tested once",
        ],
    );
    NAMES.into_iter().for_each(|name| print_journal(folder, name));
    print_check(folder, shop);
}

fn print_journal(folder: &Path, name: &str) {
    let journal = fs::read(folder.join(name)).expect("the journal");
    let lines = journal.iter().filter(|&&byte| byte == b'\n').count();
    let samples = play(folder, name);
    let counts = PROGRAMS.map(|program| counted(folder, program, name));
    let quotient = |at: usize| Some(counts[0]? / counts[at]?);
    row(&[
        name.to_string(),
        journal.len().to_string(),
        lines.to_string(),
        format!("{:.2}", median(&samples[0]) / 1_000.0),
        count(counts[0]),
        times(ratio(&samples[0], &samples[1])),
        times(quotient(1)),
        times(ratio(&samples[0], &samples[2])),
        times(quotient(2)),
    ]);
}

/// One check in a journal: what the checks add to the journal without them.
fn print_check(folder: &Path, mut shop: Option<ShopCheck>) {
    let mut samples = [const { [Vec::new(), Vec::new()] }; PROGRAMS.len()];
    let mut others = Vec::new();
    for _ in 0..CHECK_ROUNDS {
        for ([without, with], program) in samples.iter_mut().zip(PROGRAMS) {
            // The first run after another program takes longer.
            run(folder, program, "full");
            without.push(run(folder, program, "full"));
            with.push(run(folder, program, "full-checks"));
        }
        if let Some(ShopCheck { contender, .. }) = &mut shop {
            others.push(sample(contender.as_mut(), CHECKS as u32) / 1_000.0);
        }
    }
    head(
        "One check, 256 passes",
        &["program", "µs", "instructions", "time / proved", "instructions / proved"],
    );
    let times = samples.map(|[without, with]| (median(&with) - median(&without)) / CHECKS as f64);
    let counts = PROGRAMS.map(|program| counted_check(folder, program));
    for (at, program) in PROGRAMS.into_iter().enumerate() {
        print_checked(program, (times[0], counts[0]), (times[at], counts[at]));
    }
    if let Some(ShopCheck { count, .. }) = shop {
        print_checked("SQLite", (times[0], counts[0]), (median(&others), count));
    }
}

/// Times and counts of the proved program and another.
fn print_checked(name: &str, proved: (f64, Option<f64>), other: (f64, Option<f64>)) {
    row(&[
        name.replace('_', " "),
        micros(other.0),
        count(other.1),
        times(other.0 / proved.0),
        times(other.1.zip(proved.1).map(|(other, proved)| other / proved)),
    ]);
}

/// The instructions of one check in a journal.
fn counted_check(folder: &Path, program: &str) -> Option<f64> {
    let with = counted(folder, program, "full-checks")?;
    Some((with - counted(folder, program, "full")?) / CHECKS as f64)
}

/// The instructions of a program for a journal.
fn counted(folder: &Path, program: &str, journal: &str) -> Option<f64> {
    total(folder.join(format!("{journal}.{program}")))
}

/// Microseconds of the programs for the journal, in turn. They print alike.
fn play(folder: &Path, journal: &str) -> [Vec<f64>; 3] {
    let expected = output(folder, PROGRAMS[0], journal);
    for program in PROGRAMS {
        assert!(output(folder, program, journal) == expected, "{program}, {journal}: alike");
    }
    let mut samples = [const { Vec::new() }; 3];
    for _ in 0..ROUNDS {
        for (taken, program) in samples.iter_mut().zip(PROGRAMS) {
            taken.push(run(folder, program, journal));
        }
    }
    samples
}

/// The microseconds of one run.
fn run(folder: &Path, program: &str, journal: &str) -> f64 {
    let start = Instant::now();
    output(folder, program, journal);
    start.elapsed().as_nanos() as f64 / 1_000.0
}

/// What the program prints; the programs lie in folders of their names.
fn output(folder: &Path, program: &str, journal: &str) -> Vec<u8> {
    let input = File::open(folder.join(journal)).expect("the journal");
    let mut command = Command::new(folder.join(program).join("journal"));
    let output = command.stdin(input).stderr(Stdio::inherit()).output();
    output.expect("the program runs").stdout
}

//! Plays random journals with the proved journal program and with the
//! independent implementation, and compares what they print, byte for byte.
//!
//! usage: journals PROGRAM JOURNALS. The last line is 'N passed, M failed',
//! where each journal counts once.

use compare::comparisons;
use compare::contexts;
use compare::met::{Least, Met};
use compare::requests::{follow, line, PROFILES};
use compare::tally::Tally;
use reference::journal::{self, LONGEST_INPUT};
use reference::random::Random;
use reference::Register;
use std::io::{self, Write};
use std::process::{Command, ExitCode, Stdio};

/// How often each 300 journals must meet the borders of lives, pairs that are nearly
/// alike, and contexts that decide. No journal opens a session on a life without a
/// tick.
const LEAST: Least = Least {
    borders: [
        [100, 55, 12],   // the first tick
        [200, 115, 60],  // before the last
        [80, 50, 25],    // the last
        [65, 45, 8],     // the last of all
        [45, 35, 0],     // no tick
        [280, 200, 120], // a role at the end
    ],
    comparisons: comparisons::Least {
        decided: [
            [28, 28, 28],   // domain
            [140, 85, 9],   // authority
            [90, 55, 2],    // first tick
            [105, 20, 40],  // last tick
            [165, 100, 12], // use limit
            [105, 35, 9],   // creation limit
            [70, 36, 4],    // hop limit
            [85, 41, 32],   // hours
            [85, 34, 44],   // places
            [110, 50, 49],  // devices
        ],
        disregarded: [580, 580, 13, 260, 180, 720, 340, 520, 400, 120],
        balanced: [25, 20, 28],
    },
    contexts: contexts::Least {
        parts: [
            [55, 50, 20, 90, 80, 25, 25, 30, 80, 40, 40], // hour
            [85, 65, 20, 85, 80, 35, 35, 25, 75, 35, 55], // place
            [75, 60, 30, 90, 80, 40, 35, 30, 80, 30, 50], // device
        ],
        wholes: [170, 130, 30, 45, 1, 10],
        arguments: [85, 95, 130, 95],
    },
};

/// A journal of at most `size` bytes whose requests follow what they do to a
/// register.
fn random_journal(random: &mut Random, size: usize) -> Vec<u8> {
    let profile = random.pick(&PROFILES)();
    let mut register = Register::fresh();
    let mut input = Vec::new();
    loop {
        let line = line(random, &register, &profile);
        if size < input.len() + line.len() {
            return input;
        }
        follow(&mut register, &line);
        input.extend_from_slice(&line);
    }
}

/// The journal's length: short, about a page, or close to the limit and above
/// it.
fn random_size(random: &mut Random) -> usize {
    match random.below(4) {
        0 => random.below(200) as usize,
        1 => random.below(4_000) as usize,
        2 => LONGEST_INPUT,
        _ => LONGEST_INPUT - 50 + random.below(200) as usize,
    }
}

/// Counts what the lines of the journal meet, if it is played at all.
fn count(met: &mut Met, input: &[u8]) {
    if input.len() > LONGEST_INPUT {
        return;
    }
    let mut register = Register::fresh();
    for line in input.split_inclusive(|&byte| byte == b'\n') {
        met.add(&register, line);
        follow(&mut register, line);
    }
}

/// What the program prints.
fn printed(program: &str, input: &[u8]) -> io::Result<Vec<u8>> {
    let mut child = Command::new(program).stdin(Stdio::piped()).stdout(Stdio::piped()).spawn()?;
    let mut stdin = child.stdin.take().expect("the child's standard input");
    let bytes = input.to_vec();
    // The program stops reading above the limit, so a broken pipe is no failure.
    let writer = std::thread::spawn(move || drop(stdin.write_all(&bytes)));
    let output = child.wait_with_output()?;
    writer.join().expect("the writer");
    Ok(output.stdout)
}

fn main() -> ExitCode {
    let arguments: Vec<String> = std::env::args().collect();
    let program = arguments.get(1).expect("usage: journals PROGRAM JOURNALS");
    let journals = arguments.get(2).and_then(|count| count.parse().ok()).unwrap_or(200);
    let (mut told, mut accepted) = (0, 0);
    let mut met = Met::default();
    let mut tally = Tally::default();
    tally.play(journals, |seed| {
        let mut random = Random::new(seed);
        let size = random_size(&mut random);
        let input = random_journal(&mut random, size);
        let expected = journal::run(&input);
        count(&mut met, &input);
        told += expected.iter().filter(|&&byte| byte == b'\n').count();
        accepted += expected.windows(3).filter(|window| window == b"ok ").count();
        match printed(program, &input) {
            Ok(output) if output == expected => Ok(()),
            Ok(_) => Err("the answers differ".to_string()),
            Err(error) => Err(format!("{program}: {error}")),
        }
    });
    println!("{told} answers compared, {accepted} of them ok");
    tally.require(accepted > 0, "an accepted line");
    met.require(&mut tally, &LEAST.times(journals / 300));
    tally.finish()
}

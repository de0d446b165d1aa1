//! Journals of about 32 KB.

use crate::registers::{creation, Shape};
use compare::requests::{follow, line, PROFILES};
use reference::journal::LONGEST_INPUT;
use reference::random::Random;
use reference::Register;
use std::fs;
use std::io;
use std::path::Path;

/// The checks of the journal `full-checks`, which otherwise is `full`.
pub const CHECKS: usize = 950;
/// The journals by name; the random ones have the names of their profiles.
pub const NAMES: [&str; 8] =
    ["empty", "checks", "creates", "small", "crowded", "deep", "wide", "wild"];

/// Writes all journals into the folder.
pub fn write_all(folder: &Path) -> io::Result<()> {
    let mut all = vec![Vec::new(), checks(), creates()];
    all.extend(PROFILES.map(random));
    for (name, journal) in NAMES.iter().zip(all) {
        fs::write(folder.join(name), journal)?;
    }
    fs::write(folder.join("full"), full(0))?;
    fs::write(folder.join("full-checks"), full(CHECKS))
}

fn start() -> Vec<String> {
    let mut lines = vec!["clock 10".to_string(), "found 1 0 16777215 65535 65535".to_string()];
    lines.extend((0..8).map(|user| format!("enrol {user} 0")));
    lines.extend(["grant 1 0", "grant 1 4", "appoint 3 1"].map(str::to_string));
    lines
}

/// The pass, with authority and its creator as holder.
fn add_pass(lines: &mut Vec<String>, pass: usize, shape: Shape) {
    lines.push(creation(pass, shape));
    lines.push(format!("allow 3 {pass} 17"));
    lines.push(format!("hand 3 3 {pass}"));
}

/// As many of the lines as a journal takes.
fn cut(lines: impl IntoIterator<Item = String>) -> Vec<u8> {
    let mut journal = Vec::new();
    for line in lines {
        if journal.len() + line.len() < LONGEST_INPUT {
            journal.extend_from_slice(line.as_bytes());
            journal.push(b'\n');
        }
    }
    journal
}

/// 32 passes; then an opening, eight checks and a closing again and again.
fn checks() -> Vec<u8> {
    let mut lines = start();
    (0..32).for_each(|pass| add_pass(&mut lines, pass, Shape::Deep));
    for turn in 0..400 {
        let session = turn % 64;
        lines.push(format!("open {session} 3 pass {} 9 0 0", turn % 32));
        lines.extend((0..8).map(|permission| format!("check {session} {permission} 9 0 0")));
        lines.push(format!("close {session}"));
    }
    cut(lines)
}

/// 256 passes, each cut from the one before, and each handed to several.
fn creates() -> Vec<u8> {
    let mut lines = start();
    for pass in 0..256 {
        add_pass(&mut lines, pass, Shape::Deep);
        lines.extend([2, 4].map(|user| format!("hand 3 {user} {pass}")));
    }
    cut(lines)
}

/// 256 passes of which one is handed over, a session, and some checks of it.
fn full(checks: usize) -> Vec<u8> {
    let mut lines = start();
    add_pass(&mut lines, 0, Shape::Deep);
    lines.extend((1..256).map(|_| creation(0, Shape::Deep)));
    lines.push("open 1 3 pass 0 9 0 0".to_string());
    lines.extend((0..checks).map(|_| "check 1 4 9 0 0".to_string()));
    cut(lines)
}

/// Random lines that follow what they do to a register.
fn random(profile: fn() -> reference::generate::Profile) -> Vec<u8> {
    let (mut random, profile) = (Random::new(1), profile());
    let (mut register, mut journal) = (Register::fresh(), Vec::new());
    loop {
        let line = line(&mut random, &register, &profile);
        if LONGEST_INPUT < journal.len() + line.len() {
            return journal;
        }
        follow(&mut register, &line);
        journal.extend_from_slice(&line);
    }
}

//! The calls of the entry point that are measured.

use crate::registers::{creation, grown, with_passes, Shape, Size, FULL, HALF, TYPICAL};
use reference::{encode, Register};
use std::fs;
use std::io;
use std::path::Path;

/// The numbers of passes over which the growth is shown.
pub const GROWTH: [usize; 4] = [16, 64, 128, 256];

/// One call: a register, its image, and a line.
pub struct Case {
    pub name: String,
    /// What SQLite's tables are filled from.
    #[cfg_attr(not(feature = "sqlite"), allow(dead_code))]
    pub register: Register,
    pub image: Vec<u8>,
    pub line: Vec<u8>,
}

impl Case {
    fn new(name: &str, register: Register, line: &str) -> Case {
        let image = encode(&register);
        Case { name: name.to_string(), register, image, line: format!("{line}\n").into_bytes() }
    }
}

/// Two reads, two small changes, a creation and the revocation of both trees.
pub fn calls() -> Vec<Case> {
    let mut cases = vec![
        Case::new("fresh: check (refused, 3)", Register::fresh(), "check 0 4 9 0 0"),
        Case::new("fresh: enrol", Register::fresh(), "enrol 3 0"),
        Case { image: Vec::new(), ..Case::new("no bytes: enrol", Register::fresh(), "enrol 3 0") },
    ];
    cases.extend(calls_on("typical", TYPICAL));
    cases.extend(calls_on("half", HALF));
    cases.extend(calls_on("full", FULL));
    cases
}

fn calls_on(name: &str, size: Size) -> Vec<Case> {
    let mut cases = vec![check(name, size), same(name, size), open(name, size), hand(name, size)];
    cases.extend(changes(name, size));
    cases
}

fn check(name: &str, size: Size) -> Case {
    let line = format!("check {} 4 9 0 0", size.sessions - 1);
    Case::new(&format!("{name}: check"), grown(size, Shape::Deep), &line)
}

/// The two deepest passes.
fn same(name: &str, size: Size) -> Case {
    let line = format!("same {} {}", size.passes - 2, size.passes - 1);
    Case::new(&format!("{name}: same"), grown(size, Shape::Deep), &line)
}

/// A second holder of pass 100, or of the last one.
fn hand(name: &str, size: Size) -> Case {
    let line = format!("hand 3 2 {}", 100.min(size.passes - 1));
    Case::new(&format!("{name}: hand"), grown(size, Shape::Deep), &line)
}

/// The last session, opened on the pass of its number.
fn open(name: &str, size: Size) -> Case {
    let last = size.sessions - 1;
    let before = Size { sessions: last, ..size };
    let line = format!("open {last} 3 pass {} 9 0 0", last % size.passes);
    Case::new(&format!("{name}: open"), grown(before, Shape::Deep), &line)
}

/// The creation of the last pass, and the revocation of all.
fn changes(name: &str, size: Size) -> [Case; 3] {
    let last = size.passes - 1;
    let before = Size { passes: last, ..size };
    let create = creation(last, Shape::Deep);
    [
        Case::new(&format!("{name}: create"), grown(before, Shape::Deep), &create),
        Case::new(&format!("{name}: revoke, deep"), grown(size, Shape::Deep), "revoke 3 0"),
        Case::new(&format!("{name}: revoke, wide"), grown(size, Shape::Wide), "revoke 3 0"),
    ]
}

/// Lines on a register, and the lines that they are measured against.
pub struct List {
    /// One of the calls, for SQLite.
    pub case: Case,
    pub image: Vec<u8>,
    pub with: Vec<u8>,
    pub without: Vec<u8>,
    /// How many calls the lines have more.
    pub calls: f64,
}

impl List {
    fn new(case: Case, image: Vec<u8>, with: &[String], without: &[String], calls: usize) -> List {
        let text = |lines: &[String]| lines.concat().into_bytes();
        List { case, image, with: text(with), without: text(without), calls: calls as f64 }
    }

    /// The case's line by itself.
    fn single(case: Case) -> List {
        let (image, line) = (case.image.clone(), case.line.clone());
        List { case, image, with: line, without: Vec::new(), calls: 1.0 }
    }
}

/// Checks, openings (each closed again, against closings alone), creations and
/// the revocation of both trees.
pub fn lists() -> Vec<List> {
    [("half", HALF), ("full", FULL)]
        .into_iter()
        .flat_map(|(name, size)| lists_on(name, size))
        .collect()
}

fn lists_on(name: &str, size: Size) -> [List; 5] {
    const MANY: usize = 64;
    let line = |case: &Case| String::from_utf8(case.line.clone()).expect("ASCII");
    let check = check(name, size);
    let checks = vec![line(&check); MANY];
    let image = check.image.clone();
    let checks = List::new(check, image, &checks, &[], MANY);
    let open = open(name, size);
    let close = format!("close {}\n", size.sessions - 1);
    let (pairs, closes) = (vec![line(&open) + &close; MANY], vec![close; MANY]);
    let image = open.image.clone();
    let opens = List::new(open, image, &pairs, &closes, MANY);
    let [create, deep, wide] = changes(name, size);
    let first = size.passes - MANY;
    let before = encode(&grown(Size { passes: first, ..size }, Shape::Deep));
    // all from the last pass there, which its creator holds
    let added = (first..size.passes).map(|_| creation(first, Shape::Deep) + "\n");
    let creates = List::new(create, before, &added.collect::<Vec<_>>(), &[], MANY);
    [checks, opens, creates, List::single(deep), List::single(wide)]
}

/// For each register, the line that yields no request: only the load is done;
/// and the line that changes nothing: load and save are done.
pub fn images() -> Vec<[Case; 2]> {
    let registers = [
        ("fresh", Register::fresh()),
        ("half", grown(HALF, Shape::Deep)),
        ("full", grown(FULL, Shape::Deep)),
    ];
    registers
        .map(|(name, register)| {
            let clock = format!("clock {}", register.clock);
            [Case::new(name, register.clone(), ""), Case::new(name, register, &clock)]
        })
        .into()
}

/// The same calls over a growing number of passes, call by call.
pub fn growth() -> Vec<Vec<Case>> {
    let at = |passes: &usize| {
        let size = with_passes(*passes);
        let [create, deep, wide] = changes("growth", size);
        [check("growth", size), open("growth", size), create, deep, wide]
    };
    let mut rows: Vec<Vec<Case>> = Vec::new();
    rows.resize_with(5, Vec::new);
    for cases in GROWTH.iter().map(at) {
        for (row, case) in rows.iter_mut().zip(cases) {
            row.push(case);
        }
    }
    rows
}

/// Writes images and lines of the calls into the folder, under their numbers.
pub fn write_all(folder: &Path) -> io::Result<()> {
    for (number, case) in calls().into_iter().enumerate() {
        fs::write(folder.join(format!("{number:02}.image")), &case.image)?;
        fs::write(folder.join(format!("{number:02}.line")), &case.line)?;
        fs::write(folder.join(format!("{number:02}.name")), &case.name)?;
    }
    Ok(())
}

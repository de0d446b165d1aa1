//! Shared by the integration tests.
#![allow(dead_code)]

pub mod contexts;

use reference::generate::{Border, Borders};
use reference::{apply, parse, well_formed, Answer, Register};

/// The input of the listing (§12.3.1).
pub const LISTING: &str = "\
enrol 3 0
found 1 0 16777215 65535 65535
grant 1 0
grant 1 4
appoint 3 1
create 3 role 1 9 0 0 0 100 2 1 1 16777215 65535 65535
allow 3 0 16
hand 3 3 0
open 5 3 pass 0 9 0 0
check 5 4 9 0 0
revoke 3 0
check 5 4 9 0 0
";

/// The output of the listing.
pub const LISTED: &str = "\
ok 0
ok 0
ok 0
ok 0
ok 0
ok 0
ok 16
ok 1
ok 0
ok 1
ok 1
ok 0
";

/// The three context masks in full.
pub const ALL: &str = "16777215 65535 65535";

/// Performs one line, given without its line feed. A refusal must leave the
/// register as it was, and any answer one that keeps the rules.
pub fn perform(register: &mut Register, line: &str) -> Answer {
    let request = parse(line.as_bytes()).unwrap_or_else(|| panic!("malformed: {line}"));
    let before = register.clone();
    let answer = apply(register, &request);
    match answer {
        Ok(_) => assert!(well_formed(register), "{line}: breaks the rules"),
        Err(_) => assert!(*register == before, "{line}: changed by a refusal"),
    }
    answer
}

/// Performs the lines, all of which must be accepted.
pub fn accept_all(register: &mut Register, lines: &[&str]) {
    for line in lines {
        let answer = perform(register, line);
        assert!(answer.is_ok(), "{line}: {answer:?}");
    }
}

/// The register after the lines, all of which must be accepted.
pub fn after(lines: &[&str]) -> Register {
    let mut register = Register::fresh();
    accept_all(&mut register, lines);
    register
}

/// The answer to the line on a copy of the register must be this one.
pub fn expect(register: &Register, line: &str, answer: Answer) {
    assert_eq!(perform(&mut register.clone(), line), answer, "{line}");
}

/// The line must be refused with this number.
pub fn refuses(register: &Register, line: &str, number: u8) {
    expect(register, line, Err(number));
}

/// The line must be accepted with this value.
pub fn accepts(register: &Register, line: &str, value: u64) {
    expect(register, line, Ok(value));
}

/// Create, open and check must have met the border so often.
pub fn assert_met(borders: &Borders, border: Border, least: [u64; 3]) {
    let met = borders.met(border);
    let enough = met.iter().zip(least).all(|(&met, least)| met >= least);
    assert!(enough, "{border:?}: {met:?} of at least {least:?}");
}

/// Users 0, 1, 2 of domain 0 and 3 of domain 1. Role 0 (domain 0, all
/// contexts) has permissions 0, 4 and 5, and users 0 and 1; role 1 (domain 1)
/// has 0 and 6, and user 3; role 2 (domain 0) has hours 0 to 9, place 0 and
/// device 0, no permission, and user 0. The clock is 10.
///
/// Capability 0 is user 0's on role 0: life 5 to 100, limits 4 each, own
/// permissions 0 and 4, held by user 1. Capability 1 is user 1's on capability
/// 0: life 5 to 50, limits 3, 2 and 1, own permission 0, held by user 2.
/// Capability 2 is user 2's on capability 1 with the same life and limits 1.
/// Capability 3 is user 3's on role 1.
pub fn sample() -> Register {
    after(&[
        "clock 10",
        "enrol 0 0",
        "enrol 1 0",
        "enrol 2 0",
        "enrol 3 1",
        "found 0 0 16777215 65535 65535",
        "found 1 1 16777215 65535 65535",
        "found 2 0 1023 1 1",
        "grant 0 0",
        "grant 0 4",
        "grant 0 5",
        "grant 1 0",
        "grant 1 6",
        "appoint 0 0",
        "appoint 1 0",
        "appoint 3 1",
        "appoint 0 2",
        "create 0 role 0 9 1 1 5 100 4 4 4 16777215 65535 65535",
        "allow 0 0 17",
        "hand 0 1 0",
        "create 1 pass 0 9 1 1 5 50 3 2 1 16777215 65535 65535",
        "allow 1 1 1",
        "hand 1 2 1",
        "create 2 pass 1 9 1 1 5 50 1 1 1 16777215 65535 65535",
        "create 3 role 1 0 0 0 0 4294967295 65535 65535 65535 16777215 65535 65535",
    ])
}

/// A chain of 256 capabilities, each the origin of the next, in which every
/// field is set: 64 users, 32 roles and 64 sessions are there as well.
pub fn longest_chain() -> Register {
    let mut register = after(&["clock 1"]);
    let mut play = |line: String| accept_all(&mut register, &[&line]);
    (0..64).for_each(|user| play(format!("enrol {user} 7")));
    (0..32).for_each(|role| play(format!("found {role} 7 {ALL}")));
    play("grant 31 0".to_string());
    play("appoint 63 31".to_string());
    for number in 0..256 {
        let origin = match number {
            0 => "role 31".to_string(),
            _ => format!("pass {}", number - 1),
        };
        play(format!("create 63 {origin} 23 15 15 1 9 2 1 1 {ALL}"));
        play(format!("allow 63 {number} 1"));
        play(format!("lend 63 {number} 2147483648"));
        play(format!("hand 63 63 {number}"));
        let session = number % 64;
        if number >= 64 {
            play(format!("close {session}"));
        }
        play(format!("open {session} 63 pass {number} 23 15 15"));
    }
    register
}

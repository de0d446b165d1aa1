//! The counts of checks that hang on their context, and how often requests make
//! them.

mod common;

use common::after;
use reference::generate::contexts::{KINDS, PARTS, WHOLES};
use reference::generate::{self, Contexts, Profile};
use reference::random::Random;
use reference::{apply_trusted, parse, Register, Request};

/// Role 0 leaves out hour 20, place 12 and device 13; capability 0 on it leaves
/// out hours 0 to 3, place 2 and device 3 as well. Session 0 is on the role, and
/// session 1 on the capability; both were opened at 9 1 1.
fn with_sessions() -> Register {
    after(&[
        "enrol 0 0",
        "found 0 0 15728639 61439 57343",
        "grant 0 0",
        "appoint 0 0",
        "create 0 role 0 9 1 1 0 100 9 9 9 15728624 61435 57335",
        "allow 0 0 1",
        "hand 0 0 0",
        "open 0 0 role 0 9 1 1",
        "open 1 0 pass 0 9 1 1",
    ])
}

/// The counts after these lines on the register, one after the other.
fn counted(register: &Register, lines: &[&str]) -> ([[u64; KINDS.len()]; 3], [u64; WHOLES.len()]) {
    let mut contexts = Contexts::default();
    for line in lines {
        contexts.add(register, &parse(line.as_bytes()).expect("a request"));
    }
    (
        std::array::from_fn(|part| contexts.part(part)),
        std::array::from_fn(|place| contexts.whole(place)),
    )
}

/// The line adds one to each of these kinds of one part, and else to nothing.
fn counts_part(line: &str, part: usize, kinds: &[usize]) {
    let mut expected = [[0; KINDS.len()]; 3];
    kinds.iter().for_each(|&kind| expected[part][kind] += 1);
    assert_eq!(counted(&with_sessions(), &[line]), (expected, [0; WHOLES.len()]), "{line}");
}

fn counts_whole(line: &str, place: usize) {
    let mut expected = [0; WHOLES.len()];
    expected[place] += 1;
    assert_eq!(counted(&with_sessions(), &[line]), ([[0; KINDS.len()]; 3], expected), "{line}");
}

#[test]
fn a_number_that_decides_alone_is_counted() {
    for (part, context) in ["20 1 1", "9 12 1", "9 1 13"].iter().enumerate() {
        counts_part(&format!("check 0 0 {context}"), part, &[0]);
        counts_part(&format!("check 1 0 {context}"), part, &[1]);
    }
    for (part, context) in ["3 1 1", "9 2 1", "9 1 3"].iter().enumerate() {
        counts_part(&format!("check 0 0 {context}"), part, &[3]);
        counts_part(&format!("check 1 0 {context}"), part, &[1, 2]);
    }
    for (part, context) in ["23 1 1", "9 15 1", "9 1 15"].iter().enumerate() {
        counts_part(&format!("check 0 0 {context}"), part, &[3, 5]);
        counts_part(&format!("check 1 0 {context}"), part, &[4, 6]);
    }
}

#[test]
fn a_number_out_of_range_is_counted() {
    for (part, context) in ["24 1 1", "9 16 1", "9 1 16"].iter().enumerate() {
        counts_part(&format!("check 1 0 {context}"), part, &[7]);
        counts_part(&format!("check 63 0 {context}"), part, &[9]);
    }
    for (part, context) in ["25 1 1", "9 4294967295 1", "9 1 257"].iter().enumerate() {
        counts_part(&format!("check 0 9 {context}"), part, &[8]);
        counts_part(&format!("check 2 9 {context}"), part, &[10]);
    }
}

#[test]
fn whole_contexts_are_counted() {
    counts_whole("check 0 0 9 1 1", 0);
    counts_whole("check 1 0 9 1 1", 1);
    counts_whole("check 0 0 20 12 1", 2);
    counts_whole("check 1 0 3 1 3", 3);
    counts_whole("check 0 0 20 12 13", 4);
    counts_whole("check 1 0 20 2 3", 5);
}

#[test]
fn other_checks_count_nothing() {
    let nothing = ([[0; KINDS.len()]; 3], [0; WHOLES.len()]);
    let lines = [
        "check 1 4 9 1 1",  // a permission that is not carried
        "check 1 4 20 1 1", // the same, not admitted
        "check 2 0 9 1 1",  // not open
        "check 64 0 24 1 1",
        "check 1 32 24 1 1",
        "check 1 0 24 16 1",
        "check 0 0 10 2 1", // a yes that differs in two numbers
        "open 2 0 pass 0 9 1 1",
    ];
    assert_eq!(counted(&with_sessions(), &lines), nothing);
    let mut revoked = with_sessions();
    revoked.capabilities[0].revoked = true;
    assert_eq!(counted(&revoked, &["check 1 0 9 1 1", "check 1 0 20 1 1"]), nothing);
}

/// How often the requests of a profile must do it, in the order of [`KINDS`] and
/// of [`WHOLES`]. In long chains hardly a role leaves out more than one.
const LEAST: [u64; KINDS.len()] = [6, 60, 23, 40, 80, 12, 30, 19, 30, 25, 24];
const LEAST_WHOLES: [u64; WHOLES.len()] = [80, 150, 1, 28, 0, 1];

fn assert_often(met: &[u64], least: &[u64], what: &str) {
    let enough = met.iter().zip(least).all(|(met, least)| met >= least);
    assert!(enough, "{what}: {met:?} of at least {least:?}");
}

#[test]
fn requests_of_every_profile_hang_on_contexts() {
    let profiles =
        [Profile::small(), Profile::crowded(), Profile::deep(), Profile::wide(), Profile::wild()];
    for (seed, profile) in (90..).zip(&profiles) {
        let mut random = Random::new(seed);
        let mut contexts = Contexts::default();
        for _ in 0..200 {
            let mut register = Register::fresh();
            for request in generate::requests(&mut random, &register, profile, 800) {
                contexts.add(&register, &request);
                let _ = apply_trusted(&mut register, &request);
            }
        }
        for (part, name) in PARTS.iter().enumerate() {
            assert_often(&contexts.part(part), &LEAST, &format!("{seed}, {name}"));
        }
        let wholes: [u64; WHOLES.len()] = std::array::from_fn(|place| contexts.whole(place));
        assert_often(&wholes, &LEAST_WHOLES, &format!("{seed}, whole"));
    }
}

/// Of the checks that are answered, at least one in three is a yes.
#[test]
fn many_checks_are_still_a_yes() {
    let mut random = Random::new(95);
    for profile in [Profile::small(), Profile::crowded(), Profile::deep(), Profile::wide()] {
        let (mut yes, mut answered) = (0, 0);
        for _ in 0..100 {
            let mut register = Register::fresh();
            for request in generate::requests(&mut random, &register, &profile, 800) {
                let answer = apply_trusted(&mut register, &request);
                if let (Request::Check(_), Ok(value)) = (request, answer) {
                    yes += value;
                    answered += 1;
                }
            }
        }
        assert!(3 * yes >= answered, "{yes} of {answered}: {profile:?}");
    }
}

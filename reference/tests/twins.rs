//! The generators make capabilities that are nearly alike and have them
//! compared, and the counts say so.

mod common;

use common::{accept_all, after, ALL};
use reference::generate::comparisons::{Comparisons, BALANCED, DISREGARDED, PARTS};
use reference::generate::{self, Profile};
use reference::random::Random;
use reference::register::COMPARED;
use reference::{apply_trusted, parse, Register, Request};

type Decided = [[u64; PARTS.len()]; COMPARED.len()];
type Disregarded = [u64; DISREGARDED.len()];

fn counts(comparisons: &Comparisons) -> (Decided, Disregarded) {
    let decided = std::array::from_fn(|place| comparisons.decided(place));
    (decided, std::array::from_fn(|place| comparisons.disregarded(place)))
}

/// What the line counts on the register.
fn counted(register: &Register, line: &str) -> (Decided, Disregarded) {
    let mut comparisons = Comparisons::default();
    comparisons.add(register, &parse(line.as_bytes()).expect("a request"));
    counts(&comparisons)
}

/// Nothing but these parts of the number at this place, or but what is
/// disregarded at these places.
fn only(place: usize, parts: [u64; PARTS.len()], disregarded: &[usize]) -> (Decided, Disregarded) {
    let decided = |number| if number == place { parts } else { [0; PARTS.len()] };
    let met = |number| u64::from(disregarded.contains(&number));
    (std::array::from_fn(decided), std::array::from_fn(met))
}

/// Users 0 and 1, and roles 0 and 1 of domain 0, and 2 of domain 1 with user 2.
/// Capability 0 is user 0's on role 0.
fn with_one() -> Register {
    let mut register = after(&["enrol 0 0", "enrol 1 0", "enrol 2 1"]);
    for (role, domain, user) in [(0, 0, 0), (1, 0, 0), (2, 1, 2)] {
        let mut play = |line: String| accept_all(&mut register, &[&line]);
        play(format!("found {role} {domain} {ALL}"));
        (0..32).for_each(|permission| play(format!("grant {role} {permission}")));
        play(format!("appoint {user} {role}"));
    }
    accept_all(&mut register, &["appoint 1 0", &create(0, "role 0", TERMS)]);
    register
}

const TERMS: [u64; 8] = [0, 1 << 31, 4, 4, 4, 0xff_ffff, 0xffff, 0xffff];

fn create(user: u8, origin: &str, terms: [u64; 8]) -> String {
    let terms = terms.map(|term| term.to_string()).join(" ");
    format!("create {user} {origin} 9 0 0 {terms}")
}

/// The count of `same 0 1` after the second capability and these lines.
fn after_second(second: &str, lines: &[&str]) -> (Decided, Disregarded) {
    let mut register = with_one();
    accept_all(&mut register, &[second]);
    accept_all(&mut register, lines);
    let counted_once = counted(&register, "same 0 1");
    assert_eq!(counted(&register, "same 1 0"), counted_once);
    counted_once
}

const NOWHERE: usize = COMPARED.len();
const LOWEST: [u64; 3] = [1, 1, 0];
const HIGHEST: [u64; 3] = [1, 0, 1];
const BETWEEN: [u64; 3] = [1, 0, 0];

#[test]
fn a_number_that_decides_alone_is_counted() {
    for place in 0..TERMS.len() {
        let width = [32, 32, 16, 16, 16, 24, 16, 16][place];
        for (bits, parts) in [(1, LOWEST), (1 << (width - 8), HIGHEST), (0x101, BETWEEN)] {
            let mut other = TERMS;
            other[place] ^= bits;
            let met = after_second(&create(0, "role 0", other), &[]);
            assert_eq!(met, only(place + 2, parts, &[]), "{place}: {bits}");
        }
    }
}

#[test]
fn domain_and_authority_that_decide_alone_are_counted() {
    let met = after_second(&create(2, "role 2", TERMS), &[]);
    assert_eq!(met, only(0, [1, 1, 1], &[]));
    for (mask, parts) in [(1_u32, LOWEST), (1 << 31, HIGHEST), (1 << 12, BETWEEN)] {
        let allow = format!("allow 0 1 {mask}");
        let met = after_second(&create(0, "role 0", TERMS), &[&allow]);
        assert_eq!(met, only(1, parts, &[]));
    }
}

#[test]
fn what_is_passed_over_is_counted() {
    let twin = create(0, "role 0", TERMS);
    let met = |second: &str, lines: &[&str], names: &[&str]| {
        let named = |place: &usize| names.contains(&DISREGARDED[*place]);
        let places: Vec<usize> = (0..DISREGARDED.len()).filter(named).collect();
        assert_eq!(places.len(), names.len());
        assert_eq!(after_second(second, lines), only(NOWHERE, [0; 3], &places), "{names:?}");
    };
    met(&twin, &[], &[]);
    met(&create(1, "role 0", TERMS), &[], &["creator"]);
    met(&create(0, "role 1", TERMS), &[], &["origin", "role at the end"]);
    met(&twin, &["revoke 0 1"], &["revoked mark"]);
    met(&twin, &["hand 0 0 0", "hand 0 1 1"], &["holders"]);
    met(&twin, &["hand 0 0 0"], &["holders", "hops"]);
    let held = ["hand 0 0 0", "hand 0 0 1", "allow 0 0 4294967295", "allow 0 1 4294967295"];
    let lower = create(0, "pass 1", TERMS);
    met(&twin, &[&held[..], &["open 0 0 pass 1 9 0 0"]].concat(), &["uses"]);
    met(&twin, &[&held[..], &[&lower]].concat(), &["creations"]);
    met(&twin, &[&held[..], &["lend 0 1 1"]].concat(), &["lent roles"]);
    let lines = ["lend 0 0 1", "lend 0 1 1", "allow 0 1 2"];
    met(&twin, &lines, &["own permissions"]);
}

const BALANCE: [u64; 8] = [3, 7, 5, 6, 7, 3, 3, 3];

/// Numbers that differ and add up to the same are counted by what they add up
/// to.
#[test]
fn what_adds_up_to_the_same_is_counted() {
    let balanced = |terms: [u64; 8]| {
        let mut register = with_one();
        accept_all(&mut register, &[&create(0, "role 0", BALANCE), &create(0, "role 0", terms)]);
        let mut comparisons = Comparisons::default();
        comparisons.add(&register, &parse(b"same 1 2").expect("a request"));
        [0, 1, 2].map(|place| comparisons.balanced(place))
    };
    assert_eq!(BALANCED.len(), 3);
    assert_eq!(balanced([4, 8, 5, 6, 7, 3, 3, 3]), [1, 0, 0]);
    assert_eq!(balanced([3, 7, 4, 7, 7, 3, 3, 3]), [0, 1, 0]);
    assert_eq!(balanced([3, 7, 4, 6, 8, 3, 3, 3]), [0, 1, 0]);
    assert_eq!(balanced([3, 7, 4, 5, 9, 3, 3, 3]), [0, 1, 0]);
    for terms in [[5, 3, 3], [3, 6, 3], [3, 3, 9], [5, 5, 5]] {
        let [hours, places, devices] = terms;
        assert_eq!(balanced([3, 7, 5, 6, 7, hours, places, devices]), [0, 0, 1]);
    }
    let none = [
        BALANCE,
        [4, 9, 5, 6, 7, 3, 3, 3],
        [3, 7, 5, 6, 8, 3, 3, 3],
        [4, 8, 4, 7, 7, 3, 3, 3],
        [3, 7, 5, 6, 7, 1, 3, 3],
        [3, 7, 5, 6, 7, 1, 7, 3],
    ];
    for terms in none {
        assert_eq!(balanced(terms), [0; 3], "{terms:?}");
    }
}

#[test]
fn other_requests_count_nothing() {
    let mut register = with_one();
    let mut other = TERMS;
    (other[0], other[2]) = (1, 3);
    accept_all(&mut register, &[&create(0, "role 0", other), &create(0, "role 0", TERMS)]);
    for line in ["same 0 1", "same 0 0", "same 0 3", "same 256 0", "revoke 0 2", "check 0 2 9 0 0"]
    {
        assert_eq!(counted(&register, line), only(NOWHERE, [0; 3], &[]), "{line}");
    }
}

/// Counts what the requests compare, from this register on.
fn count_requests(comparisons: &mut Comparisons, start: &Register, list: &[Request]) {
    let mut register = start.clone();
    for request in list {
        comparisons.add(&register, request);
        let _ = apply_trusted(&mut register, request);
    }
}

fn assert_often(comparisons: &Comparisons, decided: u64, parts: u64, disregarded: u64) {
    let (numbers, others) = counts(comparisons);
    assert!(numbers.iter().all(|met| met[0] >= decided), "{numbers:?}");
    let both_ends = numbers[2..].iter().all(|met| met[1] >= parts && met[2] >= parts);
    assert!(both_ends, "{numbers:?}");
    assert!(others.iter().all(|&met| met >= disregarded), "{others:?}");
    let balanced = [0, 1, 2].map(|place| comparisons.balanced(place));
    assert!(balanced.iter().all(|&met| met >= parts), "{balanced:?}");
}

#[test]
fn requests_of_every_profile_compare_twins() {
    let profiles =
        [Profile::small(), Profile::crowded(), Profile::deep(), Profile::wide(), Profile::wild()];
    for (seed, profile) in (70..).zip(&profiles) {
        let mut random = Random::new(seed);
        let mut comparisons = Comparisons::default();
        for _ in 0..200 {
            let list = generate::requests(&mut random, &Register::fresh(), profile, 800);
            count_requests(&mut comparisons, &Register::fresh(), &list);
        }
        assert_often(&comparisons, 30, 3, 15);
    }
}

#[test]
fn requests_on_random_registers_compare_twins() {
    let mut random = Random::new(75);
    let mut comparisons = Comparisons::default();
    for _ in 0..1_000 {
        let register = generate::register(&mut random);
        let list = generate::requests(&mut random, &register, &Profile::wide(), 20);
        count_requests(&mut comparisons, &register, &list);
    }
    assert_often(&comparisons, 8, 2, 20);
}

//! Lives: that of a capability goes up to its last tick, which does not belong
//! to it (§3.3.2), and a role is in life at the end of all ticks too (§3.3.3).

mod common;

use common::{accept_all, accepts, after, perform, refuses, ALL};
use reference::{Answer, Origin, Register};

const LAST_OF_ALL: u32 = u32::MAX;

/// User 0 is appointed to role 0, which has permissions 0 and 4. Of the lives
/// given, each is that of a capability which user 0 has on role 0 and holds,
/// with both permissions.
fn with_lives(lives: &[(u32, u32)]) -> Register {
    let found = format!("found 0 0 {ALL}");
    let mut register = after(&["enrol 0 0", &found, "grant 0 0", "grant 0 4", "appoint 0 0"]);
    for (number, (first, last)) in lives.iter().enumerate() {
        let create = format!("create 0 role 0 9 0 0 {first} {last} 99 99 99 {ALL}");
        let (allow, hand) = (format!("allow 0 {number} 17"), format!("hand 0 0 {number}"));
        accept_all(&mut register, &[&create, &allow, &hand]);
    }
    register
}

/// What create, open and check answer at the tick about a capability with this
/// life. Its session is put on it as an image may show it, whatever the tick.
fn answers(first: u32, last: u32, tick: u32) -> [Answer; 3] {
    let mut register = with_lives(&[(first, last)]);
    accept_all(&mut register, &["open 63 0 role 0 9 0 0"]);
    register.sessions[63].on = Origin::Capability(0);
    register.clock = tick;
    let create = format!("create 0 pass 0 9 0 0 {first} {last} 99 99 99 {ALL}");
    let lines = [&create, "open 0 0 pass 0 9 0 0", "check 63 4 9 0 0"];
    lines.map(|line| perform(&mut register.clone(), line))
}

/// The answers if it is in life, and if it is not.
const IN_LIFE: [Answer; 3] = [Ok(1), Ok(0), Ok(1)];
const OUT_OF_LIFE: [Answer; 3] = [Err(8), Err(8), Ok(0)];

/// Lives with all their ticks.
const LIVES: [((u32, u32), &[u32]); 7] = [
    ((5, 9), &[5, 6, 7, 8]),
    ((7, 8), &[7]),
    ((0, 1), &[0]),
    ((LAST_OF_ALL - 1, LAST_OF_ALL), &[LAST_OF_ALL - 1]),
    ((7, 7), &[]),
    ((0, 0), &[]),
    ((LAST_OF_ALL, LAST_OF_ALL), &[]),
];

#[test]
fn create_open_and_check_read_the_same_ticks() {
    for ((first, last), ticks) in LIVES {
        for tick in first.saturating_sub(2)..=last.saturating_add(2) {
            let expected = match ticks.contains(&tick) {
                true => IN_LIFE,
                false => OUT_OF_LIFE,
            };
            assert_eq!(answers(first, last, tick), expected, "{first} to {last} at {tick}");
        }
    }
}

#[test]
fn a_successor_takes_over_at_the_shared_tick() {
    let mut register = with_lives(&[(0, 100), (100, 200)]);
    for (tick, open) in [(99, 0), (100, 1), (101, 1)] {
        accept_all(&mut register, &[&format!("clock {tick}")]);
        accepts(&register, &format!("open 0 0 pass {open} 9 0 0"), 0);
        refuses(&register, &format!("open 0 0 pass {} 9 0 0", 1 - open), 8);
    }
}

/// At 4,294,967,295 the capability is out of life, and its role is not.
#[test]
fn the_last_tick_of_all_ends_capabilities_and_no_role() {
    let mut register = with_lives(&[(0, LAST_OF_ALL)]);
    let create = |origin: &str| format!("create 0 {origin} 9 0 0 0 4294967295 9 9 9 {ALL}");
    accept_all(&mut register, &["open 1 0 pass 0 9 0 0", "open 2 0 role 0 9 0 0"]);
    accept_all(&mut register, &["clock 4294967294"]);
    accepts(&register, "open 3 0 pass 0 9 0 0", 0);
    accepts(&register, &create("pass 0"), 1);
    accepts(&register, "check 1 4 9 0 0", 1);
    accept_all(&mut register, &["clock 4294967295"]);
    refuses(&register, "open 3 0 pass 0 9 0 0", 8);
    refuses(&register, &create("pass 0"), 8);
    accepts(&register, "check 1 4 9 0 0", 0);
    accepts(&register, "open 3 0 role 0 9 0 0", 0);
    accepts(&register, &create("role 0"), 1);
    accepts(&register, "check 2 4 9 0 0", 1);
}

#[test]
fn a_life_from_7_to_7_is_never_open() {
    let mut register = with_lives(&[(7, 7)]);
    for tick in [6, 7, 8] {
        accept_all(&mut register, &[&format!("clock {tick}")]);
        refuses(&register, "open 0 0 pass 0 9 0 0", 8);
        refuses(&register, &format!("create 0 pass 0 9 0 0 7 7 9 9 9 {ALL}"), 8);
    }
}

#[test]
fn check_turns_at_the_last_tick_and_the_session_stays_open() {
    let mut register = with_lives(&[(0, 100)]);
    accept_all(&mut register, &["open 5 0 pass 0 9 0 0", "clock 99"]);
    let opened = register.sessions;
    accepts(&register, "check 5 4 9 0 0", 1);
    accept_all(&mut register, &["clock 100"]);
    accepts(&register, "check 5 4 9 0 0", 0);
    assert!(opened[5].active);
    assert_eq!(register.sessions, opened);
    refuses(&register, "open 5 0 role 0 9 0 0", 4);
    accepts(&register, "close 5", 0);
}

#[test]
fn create_is_refused_at_the_last_tick_of_its_origin() {
    let mut register = with_lives(&[(10, 100)]);
    let create = format!("create 0 pass 0 9 0 0 10 100 9 9 9 {ALL}");
    for (tick, answer) in [(9, Err(8)), (10, Ok(1)), (99, Ok(1)), (100, Err(8))] {
        accept_all(&mut register, &[&format!("clock {tick}")]);
        assert_eq!(perform(&mut register.clone(), &create), answer, "{tick}");
    }
}

/// Containment compares the same numbers, whether they belong to the lives or
/// not (§3.4.1).
#[test]
fn a_life_may_reach_the_last_tick_of_its_origin() {
    let register = with_lives(&[(10, 100), (0, LAST_OF_ALL)]);
    let at_10 = |origin: &str, life: &str| {
        let mut register = register.clone();
        accept_all(&mut register, &["clock 10"]);
        perform(&mut register, &format!("create 0 {origin} 9 0 0 {life} 9 9 9 {ALL}"))
    };
    for life in ["10 100", "10 99", "99 100", "100 100", "10 10"] {
        assert_eq!(at_10("pass 0", life), Ok(2), "{life}");
    }
    for life in ["10 101", "9 100", "101 101", "9 9"] {
        assert_eq!(at_10("pass 0", life), Err(11), "{life}");
    }
    for life in ["0 4294967295", "4294967295 4294967295"] {
        assert_eq!(at_10("pass 1", life), Ok(2), "{life}");
        assert_eq!(at_10("role 0", life), Ok(2), "{life}");
    }
}

/// A chain with one last tick ends at once (§7.2.4), and what is derived for a
/// shorter time ends before its origin.
#[test]
fn a_lineage_ends_with_its_shortest_life() {
    let mut register = with_lives(&[(0, 100)]);
    for (number, last) in [(1, 100), (2, 100), (3, 50)] {
        let create = format!("create 0 pass {} 9 0 0 0 {last} 9 9 9 {ALL}", number - 1);
        let (allow, hand) = (format!("allow 0 {number} 17"), format!("hand 0 0 {number}"));
        let open = format!("open {number} 0 pass {number} 9 0 0");
        accept_all(&mut register, &[&create, &allow, &hand, &open]);
    }
    for (tick, values) in [(49, [1, 1, 1]), (50, [1, 1, 0]), (99, [1, 1, 0]), (100, [0, 0, 0])] {
        accept_all(&mut register, &[&format!("clock {tick}")]);
        for (number, value) in (1..).zip(values) {
            accepts(&register, &format!("check {number} 4 9 0 0"), value);
        }
    }
}

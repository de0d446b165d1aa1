//! Refusals of open, check and close, and their order; the values of check;
//! and what holds for all calls: 15 before all else, 2 for each argument.

mod common;

use common::{accept_all, accepts, perform, refuses, sample};
use reference::request::WORDS;
use reference::{apply, parse, Origin, Request, Session};

#[test]
fn open_in_order() {
    let mut register = sample();
    accept_all(&mut register, &["open 7 0 role 0 9 1 1"]);
    register.clock = 50; // the last tick of capabilities 1 and 2
    for number in [1, 2] {
        register.capabilities[number].hours = 0x3ff;
        register.capabilities[number].revoked = true;
    }
    register.capabilities[1].uses = 3;
    refuses(&register, "open 64 63 pass 1 23 1 1", 2);
    refuses(&register, "open 7 64 pass 1 23 1 1", 2);
    refuses(&register, "open 7 63 pass 256 23 1 1", 2);
    refuses(&register, "open 7 63 role 32 23 1 1", 2);
    refuses(&register, "open 7 63 pass 1 24 1 1", 2);
    refuses(&register, "open 7 63 pass 1 23 16 1", 2);
    refuses(&register, "open 7 63 pass 1 23 1 16", 2);
    refuses(&register, "open 7 63 pass 1 23 1 1", 3);
    refuses(&register, "open 7 0 pass 4 23 1 1", 3);
    refuses(&register, "open 7 0 role 31 23 1 1", 3);
    refuses(&register, "open 7 0 pass 1 23 1 1", 4);
    refuses(&register, "open 8 0 pass 1 23 1 1", 6);
    refuses(&register, "open 8 2 pass 1 23 1 1", 7);
    register.capabilities[1].revoked = false;
    for (clock, number) in [(50, 8), (4, 8), (49, 9), (5, 9)] {
        register.clock = clock;
        refuses(&register, "open 8 2 pass 1 23 1 1", number);
    }
    refuses(&register, "open 8 2 pass 1 9 1 1", 10);
    register.capabilities[1].uses = 65_535; // above the limit
    refuses(&register, "open 8 2 pass 1 9 1 1", 10);
    register.capabilities[1].uses = 2;
    assert_eq!(perform(&mut register, "open 8 2 pass 1 9 1 1"), Ok(0));
    assert_eq!(register.capabilities[1].uses, 3);
    let on = Origin::Capability(1);
    let opened = Session { active: true, user: 2, on, hour: 9, place: 1, device: 1 };
    assert_eq!(register.sessions[8], opened);
}

#[test]
fn open_on_a_role() {
    let mut register = sample();
    refuses(&register, "open 0 2 role 0 9 0 0", 6);
    refuses(&register, "open 0 0 role 2 10 0 0", 9);
    refuses(&register, "open 0 0 role 2 9 1 0", 9);
    refuses(&register, "open 0 0 role 2 9 0 1", 9);
    let before = register.clone();
    assert_eq!(perform(&mut register, "open 0 0 role 2 9 0 0"), Ok(0));
    assert_eq!(register.capabilities, before.capabilities);
    refuses(&register, "open 0 0 role 2 9 0 0", 4);
}

#[test]
fn check_in_order_and_on_a_role() {
    let mut register = sample();
    refuses(&register, "check 64 0 9 0 0", 2);
    refuses(&register, "check 0 32 9 0 0", 2); // 3 applies too
    refuses(&register, "check 0 0 9 0 0", 3);
    accept_all(&mut register, &["open 0 0 role 0 9 0 0"]);
    refuses(&register, "check 0 32 9 0 0", 2);
    accepts(&register, "check 0 4 9 0 0", 1);
    accepts(&register, "check 0 6 9 0 0", 0);
    accept_all(&mut register, &["withdraw 0 4"]);
    accepts(&register, "check 0 4 9 0 0", 0);
    accepts(&register, "check 0 5 9 0 0", 1);
    accept_all(&mut register, &["dismiss 0 0"]);
    accepts(&register, "check 0 5 9 0 0", 0);
    accept_all(&mut register, &["appoint 0 0"]);
    accepts(&register, "check 0 5 9 0 0", 1);
}

#[test]
fn check_on_a_capability() {
    let mut register = sample();
    accept_all(&mut register, &["open 0 1 pass 0 9 0 0"]);
    accepts(&register, "check 0 4 9 0 0", 1);
    accepts(&register, "check 0 5 9 0 0", 0);
    accept_all(&mut register, &["lend 0 0 1", "dismiss 1 0", "amend 0 0 -4"]);
    accepts(&register, "check 0 5 9 0 0", 1);
    let mut other = register.clone();
    other.sessions[0].user = 2; // holds nothing
    accepts(&other, "check 0 5 9 0 0", 0);
    accept_all(&mut register, &["clock 99"]);
    accepts(&register, "check 0 5 9 0 0", 1);
    let mut late = register.clone();
    accept_all(&mut late, &["clock 100"]);
    accepts(&late, "check 0 5 9 0 0", 0);
    accept_all(&mut register, &["revoke 0 0"]);
    accepts(&register, "check 0 5 9 0 0", 0);
}

#[test]
fn close_in_order() {
    let mut register = sample();
    refuses(&register, "close 64", 2);
    refuses(&register, "close 63", 3);
    let before = register.clone();
    accept_all(&mut register, &["open 63 0 role 0 9 3 4", "close 63"]);
    assert_eq!(register, before);
    refuses(&register, "close 63", 3);
}

/// A line of each call that the sample accepts, and the last number of the
/// range of each argument.
const RANGES: [(&str, &[u64]); 17] = [
    ("enrol 5 0", &[63, 7]),
    ("found 5 0 0 0 0", &[31, 7, 0xff_ffff, 0xffff, 0xffff]),
    ("grant 0 9", &[31, 31]),
    ("withdraw 0 0", &[31, 31]),
    ("appoint 2 0", &[63, 31]),
    ("dismiss 0 0", &[63, 31]),
    ("clock 10", &[0xffff_ffff]),
    (
        "create 0 role 0 0 0 0 0 4294967295 0 0 0 0 0 0",
        &[
            63,
            31,
            23,
            15,
            15,
            0xffff_ffff,
            0xffff_ffff,
            0xffff,
            0xffff,
            0xffff,
            0xff_ffff,
            0xffff,
            0xffff,
        ],
    ),
    ("allow 0 0 32", &[63, 255, 0xffff_ffff]),
    ("lend 0 0 1", &[63, 255, 0xffff_ffff]),
    ("hand 0 0 0", &[63, 63, 255]),
    ("open 0 1 pass 0 9 0 0", &[63, 63, 255, 23, 15, 15]),
    ("check 1 0 9 0 0", &[63, 31, 23, 15, 15]),
    ("amend 0 0 1", &[63, 255]),
    ("revoke 0 0", &[63, 255]),
    ("close 1", &[63]),
    ("same 0 0", &[255, 255]),
];

#[test]
fn each_argument_has_its_range() {
    let mut register = sample();
    accept_all(&mut register, &["open 1 0 role 0 9 0 0"]);
    for (line, lasts) in RANGES {
        let request = parse(line.as_bytes()).unwrap();
        assert!(apply(&mut register.clone(), &request).is_ok(), "{line}");
        assert_eq!(request.clone().arguments_mut().len(), lasts.len(), "{line}");
        for (place, &last) in lasts.iter().enumerate() {
            let with = |number: u64| {
                let mut changed = request;
                *changed.arguments_mut()[place] = number;
                apply(&mut register.clone(), &changed)
            };
            assert_ne!(with(last), Err(2), "{line}: argument {place}");
            for beyond in [last + 1, last + 257, 1 << 32, (1 << 32) + 1, 1 << 63, u64::MAX] {
                assert_eq!(with(beyond), Err(2), "{line}: argument {place}, {beyond}");
            }
        }
    }
}

#[test]
fn amends_change_has_its_range() {
    let mut register = sample();
    let amend = |change| Request::Amend { user: 3, capability: 3, change };
    for change in [65_536, -65_536, 1 << 32, i64::MAX, i64::MIN] {
        assert_eq!(apply(&mut register, &amend(change)), Err(2), "{change}");
    }
    assert_eq!(apply(&mut register, &amend(-65_535)), Ok(0));
    assert_eq!(apply(&mut register, &amend(65_535)), Ok(65_535));
}

#[test]
fn a_register_that_breaks_a_rule_gets_15_from_every_call() {
    let mut register = sample();
    accept_all(&mut register, &["open 1 0 role 0 9 0 0"]);
    register.domains[40] = 1;
    let broken = register.clone();
    for (place, (line, _)) in RANGES.iter().enumerate() {
        let mut request = parse(line.as_bytes()).unwrap();
        assert_eq!(request.word(), WORDS[place]);
        assert_eq!(apply(&mut register, &request), Err(15), "{line}");
        request.arguments_mut().into_iter().for_each(|number| *number = u64::MAX);
        assert_eq!(apply(&mut register, &request), Err(15), "{line}, out of range");
        assert_eq!(register, broken);
    }
}

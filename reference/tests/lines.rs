//! The parser and the printer of lines.

mod common;

use common::LISTING;
use reference::generate::{self, Profile};
use reference::random::Random;
use reference::request::WORDS;
use reference::{apply_trusted, lines, parse, print};
use reference::{Creation, Inquiry, Named, Opening, Register, Request};

fn malformed(line: &str) {
    assert_eq!(parse(line.as_bytes()), None, "{line:?}");
}

fn parses(line: &str, request: Request) {
    assert_eq!(parse(line.as_bytes()), Some(request), "{line:?}");
}

#[test]
fn each_word_takes_its_arguments_in_order() {
    parses("enrol 1 2", Request::Enrol { user: 1, domain: 2 });
    let (hours, places, devices) = (3, 4, 5);
    parses("found 1 2 3 4 5", Request::Found { role: 1, domain: 2, hours, places, devices });
    parses("grant 1 2", Request::Grant { role: 1, permission: 2 });
    parses("withdraw 1 2", Request::Withdraw { role: 1, permission: 2 });
    parses("appoint 1 2", Request::Appoint { user: 1, role: 2 });
    parses("dismiss 1 2", Request::Dismiss { user: 1, role: 2 });
    parses("clock 1", Request::Clock { tick: 1 });
    parses("allow 1 2 3", Request::Allow { user: 1, capability: 2, permissions: 3 });
    parses("lend 1 2 3", Request::Lend { user: 1, capability: 2, roles: 3 });
    parses("hand 1 2 3", Request::Hand { user: 1, receiver: 2, capability: 3 });
    let (hour, place, device) = (3, 4, 5);
    let inquiry = Inquiry { session: 1, permission: 2, hour, place, device };
    parses("check 1 2 3 4 5", Request::Check(inquiry));
    parses("amend 1 2 3", Request::Amend { user: 1, capability: 2, change: 3 });
    parses("amend 1 2 -3", Request::Amend { user: 1, capability: 2, change: -3 });
    parses("revoke 1 2", Request::Revoke { user: 1, capability: 2 });
    parses("close 1", Request::Close { session: 1 });
    parses("same 1 2", Request::Same { first: 1, second: 2 });
}

#[test]
fn create_and_open_take_their_arguments_in_order() {
    let creation = Creation {
        user: 1,
        origin: Named::Role(2),
        hour: 3,
        place: 4,
        device: 5,
        first: 6,
        last: 7,
        use_limit: 8,
        creation_limit: 9,
        hop_limit: 10,
        hours: 11,
        places: 12,
        devices: 13,
    };
    let below = Creation { origin: Named::Capability(2), ..creation };
    parses("create 1 role 2 3 4 5 6 7 8 9 10 11 12 13", Request::Create(creation));
    parses("create 1 pass 2 3 4 5 6 7 8 9 10 11 12 13", Request::Create(below));
    let on = Named::Role(3);
    let opening = Opening { session: 1, user: 2, on, hour: 4, place: 5, device: 6 };
    let held = Opening { on: Named::Capability(3), ..opening };
    parses("open 1 2 role 3 4 5 6", Request::Open(opening));
    parses("open 1 2 pass 3 4 5 6", Request::Open(held));
}

#[test]
fn numbers_end_at_32_bits() {
    parses("clock 0", Request::Clock { tick: 0 });
    parses("clock 4294967295", Request::Clock { tick: 4_294_967_295 });
    malformed("clock 4294967296");
    malformed("clock 9999999999");
    malformed("clock 10000000000");
    malformed("clock 18446744073709551616");
    malformed("clock 99999999999999999999999999999999999999999999999999");
}

#[test]
fn leading_zeros_are_malformed() {
    malformed("clock 00");
    malformed("clock 01");
    malformed("clock 0000000001");
    malformed("amend 1 2 01");
    malformed("amend 1 2 -01");
    malformed("create 01 role 2 3 4 5 6 7 8 9 10 11 12 13");
    malformed("create 1 role 02 3 4 5 6 7 8 9 10 11 12 13");
    malformed("open 1 2 role 3 4 5 06");
}

#[test]
fn only_amends_change_may_bear_a_minus() {
    let amend = |change| Request::Amend { user: 1, capability: 2, change };
    parses("amend 1 2 0", amend(0));
    parses("amend 1 2 4294967295", amend(4_294_967_295));
    parses("amend 1 2 -4294967295", amend(-4_294_967_295));
    malformed("amend 1 2 -4294967296");
    malformed("amend 1 2 -0");
    malformed("amend 1 2 -00");
    malformed("amend 1 2 --1");
    malformed("amend 1 2 -");
    malformed("amend 1 2 - 1");
    malformed("amend 1 2 +1");
    malformed("amend -1 2 3");
    malformed("amend 1 -2 3");
    malformed("clock -1");
    malformed("clock -0");
    malformed("enrol 1 -2");
    malformed("open 1 2 role -3 4 5 6");
    malformed("create 1 role 2 3 4 5 6 7 -8 9 10 11 12 13");
}

#[test]
fn other_bytes_are_malformed() {
    for line in ["clock +1", "clock 1a", "clock a", "clock 0x1", "clock 1.0", "clock 1_0"] {
        malformed(line);
    }
    for line in ["clock 1\r", "clock 1\t", "clock\t1", "clock 1\n", "clock 1\0", "\u{feff}clock 1"]
    {
        malformed(line);
    }
    for line in ["clock \u{661}", "clock \"1\"", "clock 1,", "clock,1", "clock 1;", "# clock 1"] {
        malformed(line);
    }
    assert_eq!(parse(b"clock \xff"), None);
    assert_eq!(parse(b"\xff 1"), None);
}

#[test]
fn spaces_are_single() {
    malformed("");
    malformed(" ");
    malformed("  ");
    malformed("clock  1");
    malformed(" clock 1");
    malformed("clock 1 ");
    malformed("clock ");
    malformed("close 1  ");
    malformed("enrol 1  2");
    malformed("enrol 1 2 ");
    malformed("open 1 2  role 3 4 5 6");
    malformed("open 1 2 role  3 4 5 6");
}

#[test]
fn words_are_compared_byte_by_byte() {
    for line in ["Clock 1", "CLOCK 1", "clock1", "cloc 1", "clocks 1", "lock 1", "tick 1"] {
        malformed(line);
    }
    for line in ["save", "load", "save 1", "load 1", "link 1 2", "clear", "clear 1", "role 1"] {
        malformed(line);
    }
    for kind in ["Role", "roles", "Pass", "passes", "capability", "0", "1", "rol", ""] {
        malformed(&format!("open 1 2 {kind} 3 4 5 6"));
        malformed(&format!("create 1 {kind} 2 3 4 5 6 7 8 9 10 11 12 13"));
    }
}

/// One argument less or more is malformed, for every word; so is the word of
/// another call with these arguments, where it takes another number of them.
#[test]
fn arguments_are_exactly_the_calls() {
    let shapes = [
        "1 2",
        "1 2 3 4 5",
        "1 2",
        "1 2",
        "1 2",
        "1 2",
        "1",
        "1 role 2 3 4 5 6 7 8 9 10 11 12 13",
        "1 2 3",
        "1 2 3",
        "1 2 3",
        "1 2 pass 3 4 5 6",
        "1 2 3 4 5",
        "1 2 3",
        "1 2",
        "1",
        "1 2",
    ];
    for (word, shape) in WORDS.iter().zip(shapes) {
        let line = format!("{word} {shape}");
        assert_eq!(parse(line.as_bytes()).map(|request| request.word()), Some(*word));
        malformed(word);
        malformed(&format!("{line} 4"));
        malformed(&line[..line.rfind(' ').unwrap()]);
        malformed(&format!("{word} x{shape}"));
        for (other, other_shape) in WORDS.iter().zip(shapes) {
            let fits = shape.split(' ').count() == other_shape.split(' ').count();
            let named = ["create", "open"].contains(other) || ["create", "open"].contains(word);
            if !fits || named && word != other {
                malformed(&format!("{other} {shape}"));
            }
        }
    }
}

#[test]
fn answers_are_printed_with_their_line_feed() {
    assert_eq!(print(&Ok(0)), b"ok 0\n");
    assert_eq!(print(&Ok(4_294_967_295)), b"ok 4294967295\n");
    assert_eq!(print(&Err(1)), b"no 1\n");
    assert_eq!(print(&Err(16)), b"no 16\n");
}

#[test]
fn written_lines_parse_to_their_requests() {
    let written = |line: &str| lines::write(&parse(line.as_bytes()).unwrap());
    for line in LISTING.lines() {
        assert_eq!(written(line), format!("{line}\n").into_bytes());
    }
    assert_eq!(written("amend 1 2 -3"), b"amend 1 2 -3\n");
    assert_eq!(written("open 1 2 role 3 4 5 6"), b"open 1 2 role 3 4 5 6\n");
    let mut random = Random::new(30);
    let mut register = Register::fresh();
    let mut too_large = 0;
    for _ in 0..5_000 {
        let mut request = generate::request(&mut random, &register, &Profile::wild());
        let large = request.arguments_mut().iter().any(|number| **number > u32::MAX.into());
        too_large += u32::from(large);
        let line = lines::write(&request);
        let expected = if large { None } else { Some(request) };
        assert_eq!(parse(line.strip_suffix(b"\n").unwrap()), expected);
        let _ = apply_trusted(&mut register, &request);
    }
    assert!(too_large > 50, "{too_large}");
}

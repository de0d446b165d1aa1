//! The context that a check names (§6.13): its range, its masks, and the context
//! of the opening, which is not asked for.

mod common;

use common::contexts::{all_contexts, inquiry, within};
use common::{accept_all, accepts, after, perform, refuses};
use reference::{apply, journal, parse, Inquiry, Register, Request};

/// The masks of role 0, capability 0 on it and capability 1 on that: hours,
/// places, devices.
const MASKS: [[u32; 3]; 3] =
    [[0x3f_ffc0, 0x83ff, 0xc3ff], [0x3_ff00, 0x020e, 0x400e], [0x1e00, 6, 10]];

/// User 0 has session 0 on role 0, and user 1 has session 1 on capability 0 and
/// session 2 on capability 1, all opened at 10 1 1. Each target carries the
/// permissions 0 and 4, and the life of both capabilities is 5 to 100; the clock
/// is 10.
fn with_sessions() -> Register {
    let masks = MASKS.map(|masks| masks.map(|mask| mask.to_string()).join(" "));
    let [role, upper, lower] = &masks;
    after(&[
        "clock 10",
        "enrol 0 0",
        "enrol 1 0",
        &format!("found 0 0 {role}"),
        "grant 0 0",
        "grant 0 4",
        "appoint 0 0",
        &format!("create 0 role 0 10 1 1 5 100 9 9 9 {upper}"),
        "allow 0 0 17",
        "hand 0 1 0",
        &format!("create 1 pass 0 10 1 1 5 100 9 9 9 {lower}"),
        "allow 1 1 17",
        "hand 1 1 1",
        "open 0 0 role 0 10 1 1",
        "open 1 1 pass 0 10 1 1",
        "open 2 1 pass 1 10 1 1",
    ])
}

#[test]
fn each_number_alone_decides() {
    let register = with_sessions();
    for (session, masks) in MASKS.iter().enumerate() {
        for hour in 0..24 {
            let value = u64::from(masks[0] >> hour & 1);
            accepts(&register, &format!("check {session} 4 {hour} 1 1"), value);
        }
        for number in 0..16 {
            let values = [masks[1], masks[2]].map(|mask| u64::from(mask >> number & 1));
            accepts(&register, &format!("check {session} 4 10 {number} 1"), values[0]);
            accepts(&register, &format!("check {session} 4 10 1 {number}"), values[1]);
        }
    }
}

#[test]
fn all_three_numbers_are_asked_together() {
    let mut register = with_sessions();
    for (session, masks) in (0..).zip(MASKS) {
        let mut yes = 0;
        for context in all_contexts() {
            let value = u64::from(within(masks, context));
            assert_eq!(
                apply(&mut register, &inquiry(session, 4, context)),
                Ok(value),
                "{context:?}"
            );
            yes += value;
        }
        let admitted: u32 = masks.iter().map(|mask| mask.count_ones()).product();
        assert_eq!(yes, admitted.into());
    }
    assert_eq!(register, with_sessions());
}

#[test]
fn the_last_numbers_of_the_ranges_are_admitted() {
    let mut register = with_sessions();
    let lines = [
        "found 1 0 16777215 65535 65535",
        "grant 1 0",
        "appoint 0 1",
        "create 0 role 1 0 0 0 0 100 9 9 9 8388608 32768 32768",
        "allow 0 2 1",
        "hand 0 0 2",
        "open 5 0 role 1 0 0 0",
        "open 6 0 pass 2 23 15 15",
    ];
    accept_all(&mut register, &lines);
    for session in [5, 6] {
        accepts(&register, &format!("check {session} 0 23 15 15"), 1);
    }
    accepts(&register, "check 5 0 0 0 0", 1);
    for context in ["22 15 15", "23 14 15", "23 15 14", "0 0 0"] {
        accepts(&register, &format!("check 6 0 {context}"), 0);
    }
}

/// Session 0 is open, 63 is not.
#[test]
fn numbers_out_of_range_come_before_what_is_not_there() {
    let register = with_sessions();
    for session in [0, 63] {
        for number in ["24", "25", "31", "32", "34", "255", "256", "266", "65535", "4294967295"] {
            refuses(&register, &format!("check {session} 4 {number} 1 1"), 2);
        }
        for number in ["16", "17", "24", "32", "33", "255", "256", "257", "65535", "4294967295"] {
            refuses(&register, &format!("check {session} 4 10 {number} 1"), 2);
            refuses(&register, &format!("check {session} 4 10 1 {number}"), 2);
        }
        refuses(&register, &format!("check {session} 4 24 16 16"), 2);
        refuses(&register, &format!("check {session} 32 10 1 1"), 2);
    }
    refuses(&register, "check 64 4 10 1 1", 2);
    refuses(&register, "check 63 4 23 15 15", 3);
    refuses(&register, "check 63 4 0 0 0", 3);
    accepts(&register, "check 0 4 23 15 15", 0);
}

/// Not even numbers that wrap to one that is admitted.
#[test]
fn numbers_of_64_bits_are_out_of_range() {
    let mut register = with_sessions();
    for session in [0, 63] {
        for (part, number) in [(0, 10), (1, 1), (2, 1)] {
            for beyond in [1 << 8, 1 << 16, 1 << 32, 1 << 63] {
                let mut asked = Inquiry { session, permission: 4, hour: 10, place: 1, device: 1 };
                *asked.arguments_mut()[2 + part] = number + beyond;
                assert_eq!(apply(&mut register, &Request::Check(asked)), Err(2), "{asked:?}");
            }
        }
    }
}

#[test]
fn a_broken_rule_comes_before_the_range() {
    let mut register = with_sessions();
    register.domains[40] = 1;
    for line in ["check 0 4 10 1 1", "check 0 4 24 1 1", "check 63 4 10 16 1", "check 63 4 10 1 16"]
    {
        let request = parse(line.as_bytes()).expect("a request");
        assert_eq!(apply(&mut register.clone(), &request), Err(15), "{line}");
    }
    register.domains[40] = 0;
    register.sessions[1].hour = 20; // where the capability admits no session
    for line in ["check 1 4 10 1 1", "check 1 4 20 1 1", "check 1 4 24 1 1", "check 0 4 10 1 1"] {
        let request = parse(line.as_bytes()).expect("a request");
        assert_eq!(apply(&mut register.clone(), &request), Err(15), "{line}");
    }
}

#[test]
fn the_opening_is_not_compared() {
    let register = with_sessions();
    for (session, other) in [(0, "6 9 9"), (1, "8 9 14"), (2, "12 2 3")] {
        accepts(&register, &format!("check {session} 4 {other}"), 1);
        accepts(&register, &format!("check {session} 4 10 1 1"), 1);
    }
    let mut moved = register.clone();
    accept_all(&mut moved, &["close 1", "open 1 1 pass 0 17 9 14"]);
    for context in all_contexts() {
        let [opened, reopened] =
            [&register, &moved].map(|on| apply(&mut on.clone(), &inquiry(1, 4, context)));
        assert_eq!(opened, reopened, "{context:?}");
    }
}

/// Amend cuts limits, also below, and never a mask: neither the use limit nor the
/// uses made are asked for.
#[test]
fn a_cut_limit_leaves_every_context() {
    let mut register = with_sessions();
    let answers = |register: &Register| {
        let ask = |context| apply(&mut register.clone(), &inquiry(2, 4, context));
        all_contexts().map(ask).collect::<Vec<_>>()
    };
    let before = answers(&register);
    assert_eq!(perform(&mut register, "amend 0 0 -9"), Ok(0));
    assert_eq!(register.capabilities[1].use_limit, 0);
    refuses(&register, "open 3 1 pass 1 10 1 1", 10);
    assert_eq!(answers(&register), before);
}

/// A role that is lent brings its permissions and not its masks; the origin's
/// masks do not count either.
#[test]
fn wider_masks_above_do_not_help() {
    let mut register = with_sessions();
    accept_all(&mut register, &["lend 0 0 1", "lend 1 1 1", "grant 0 9"]);
    for (session, values) in [(0, [1, 1, 1]), (1, [1, 1, 0]), (2, [1, 0, 0])] {
        for (context, value) in ["10 1 1", "17 9 14", "20 8 0"].iter().zip(values) {
            accepts(&register, &format!("check {session} 9 {context}"), value);
        }
    }
}

/// Whatever else was asked for is asked for still, in each context.
#[test]
fn an_admitted_context_does_not_suffice() {
    let register = with_sessions();
    let amiss: [(&str, [u64; 3]); 5] = [
        ("dismiss 0 0", [0, 1, 1]),
        ("withdraw 0 4", [0, 0, 0]),
        ("revoke 1 1", [1, 1, 0]),
        ("revoke 0 0", [1, 0, 0]),
        ("clock 100", [1, 0, 0]),
    ];
    for (line, values) in amiss {
        let mut register = register.clone();
        accept_all(&mut register, &[line]);
        for (session, value) in (0..).zip(values) {
            accepts(&register, &format!("check {session} 4 10 1 1"), value);
            accepts(&register, &format!("check {session} 4 9 2 3"), value);
            accepts(&register, &format!("check {session} 4 23 2 3"), 0);
        }
        refuses(&register, "check 2 4 24 1 1", 2);
    }
    accepts(&register, "check 2 5 10 1 1", 0);
}

#[test]
fn a_check_has_five_arguments() {
    let lines = [
        "check",
        "check 1",
        "check 1 4",
        "check 1 4 10",
        "check 1 4 10 1",
        "check 1 4 10 1 1 1",
        "check 1 4 10 1 1 ",
        "check 1 4 10 1 ",
        "check 1 4  10 1",
        "check 1 4 10 1 -1",
        "check 1 4 10 1 01",
        "check 1 4 10 1 4294967296",
        "check 1 4 pass 0 10 1 1",
        "check 1 4 role 10 1",
    ];
    for line in lines {
        assert_eq!(parse(line.as_bytes()), None, "{line}");
        let printed = journal::run_from(with_sessions(), format!("{line}\n").as_bytes());
        assert_eq!(printed, b"no 1\n", "{line}");
    }
    let printed = journal::run_from(with_sessions(), b"check 1 4 10 1 1\ncheck 1 4 10 1 1");
    assert_eq!(printed, b"ok 1\nno 1\n");
}

/// The shop is place 1 and its tablet device 2; hours are 6 to 14. At a kitchen
/// table (place 5), or on a phone (device 0), the same session approves nothing.
#[test]
fn the_tablet_that_leaves_the_shop() {
    let input = "\
enrol 0 0
enrol 1 0
found 0 0 16777215 65535 65535
grant 0 7
appoint 0 0
grant 0 0
create 0 role 0 9 1 2 0 1000 9 9 9 32704 2 4
allow 0 0 128
hand 0 1 0
open 1 1 pass 0 6 1 2
check 1 7 6 1 2
check 1 7 9 5 2
check 1 7 9 5 0
check 1 7 9 1 0
check 1 7 15 1 2
check 1 7 14 1 2
check 1 7
";
    let answers: Vec<&str> = "0 0 0 0 0 0 0 128 1 0 1 0 0 0 0 1".split(' ').collect();
    let expected =
        answers.iter().map(|value| format!("ok {value}\n")).collect::<String>() + "no 1\n";
    assert_eq!(String::from_utf8(journal::run(input.as_bytes())), Ok(expected));
}

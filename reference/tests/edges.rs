//! The edges E1 to E8 (§12.1.1), and the four mistakes of §12.2.

mod common;

use common::{accept_all, accepts, after, perform, refuses, ALL};
use reference::{load, Register};

/// User 0 of domain 0 is appointed to role 0, which has permissions 0 to 5.
const BASE: [&str; 9] = [
    "enrol 0 0",
    "found 0 0 16777215 65535 65535",
    "grant 0 0",
    "grant 0 1",
    "grant 0 2",
    "grant 0 3",
    "grant 0 4",
    "grant 0 5",
    "appoint 0 0",
];

/// The base, and a capability of life 0 to 100 with use limit 2, held by user 0.
fn with_capability() -> Register {
    let mut register = after(&BASE);
    let create = format!("create 0 role 0 9 0 0 0 100 2 9 9 {ALL}");
    accept_all(&mut register, &[&create, "allow 0 0 31", "hand 0 0 0"]);
    register
}

#[test]
fn e1_limit_amended_to_0_leaves_no_use() {
    let mut register = with_capability();
    accepts(&register, "open 0 0 pass 0 9 0 0", 0);
    assert_eq!(perform(&mut register, "amend 0 0 -2"), Ok(0));
    assert_eq!(register.capabilities[0].use_limit, 0);
    refuses(&register, "open 0 0 pass 0 9 0 0", 10);
}

#[test]
fn e2_limit_does_not_fall_below_0() {
    refuses(&with_capability(), "amend 0 0 -3", 10);
}

#[test]
fn e3_there_are_256_capabilities() {
    let mut register = after(&BASE);
    let create = format!("create 0 role 0 9 0 0 0 100 2 9 9 {ALL}");
    for number in 0..256 {
        assert_eq!(perform(&mut register, &create), Ok(number));
    }
    refuses(&register, &create, 12);
}

#[test]
fn e4_life_excludes_its_end() {
    let mut register = with_capability();
    accept_all(&mut register, &["clock 99"]);
    accepts(&register, "open 0 0 pass 0 9 0 0", 0);
    accept_all(&mut register, &["clock 100"]);
    refuses(&register, "open 0 0 pass 0 9 0 0", 8);
}

#[test]
fn e4_life_includes_its_start() {
    let mut register = after(&BASE);
    let create = format!("create 0 role 0 9 0 0 7 8 2 9 9 {ALL}");
    accept_all(&mut register, &["clock 6", &create, "hand 0 0 0"]);
    refuses(&register, "open 0 0 pass 0 9 0 0", 8);
    accept_all(&mut register, &["clock 7"]);
    accepts(&register, "open 0 0 pass 0 9 0 0", 0);
}

#[test]
fn e5_hours_end_at_23() {
    let register = with_capability();
    accepts(&register, "open 0 0 pass 0 23 0 0", 0);
    refuses(&register, "open 0 0 pass 0 24 0 0", 2);
    accepts(&register, "open 0 0 role 0 23 15 15", 0);
    refuses(&register, "open 0 0 role 0 24 15 15", 2);
    accepts(&register, &format!("create 0 role 0 23 0 0 0 0 0 0 0 {ALL}"), 1);
    refuses(&register, &format!("create 0 role 0 24 0 0 0 0 0 0 0 {ALL}"), 2);
}

#[test]
fn e6_revoke_counts_those_newly_marked() {
    let mut register = with_capability();
    let create = format!("create 0 pass 0 9 0 0 0 100 2 0 9 {ALL}");
    accept_all(&mut register, &[&create, &create]);
    assert_eq!(perform(&mut register, "revoke 0 1"), Ok(1));
    assert_eq!(perform(&mut register, "revoke 0 0"), Ok(2));
    assert!(register.capabilities[..3].iter().all(|capability| capability.revoked));
}

#[test]
fn e7_holder_may_not_revoke() {
    let mut register = with_capability();
    accept_all(&mut register, &["enrol 1 0", "appoint 1 0", "hand 0 1 0"]);
    refuses(&register, "revoke 1 0", 6);
    let create = format!("create 1 pass 0 9 0 0 0 100 2 0 9 {ALL}");
    accept_all(&mut register, &[&create]);
    refuses(&register, "revoke 1 0", 6);
    accepts(&register, "revoke 1 1", 1);
    accepts(&register, "revoke 0 1", 1);
}

#[test]
fn e8_26_zero_bytes_load_fresh() {
    assert_eq!(load(&[0; 26]), Ok(Register::fresh()));
    assert_eq!(load(&[0; 25]), Err(14));
    assert_eq!(load(&[0; 27]), Err(14));
}

/// Beside E8: no bytes load as its 26 do, and a single one does not.
#[test]
fn e8_no_bytes_load_fresh_too() {
    assert_eq!(load(&[]), Ok(Register::fresh()));
    assert_eq!(load(&[0; 1]), Err(14));
    assert_eq!(load(&[]), load(&[0; 26]));
}

/// Grandchildren are marked too (§12.2.1).
#[test]
fn mistake_revoke_marks_all_below() {
    let mut register = with_capability();
    for upper in 0..5 {
        let create = format!("create 0 pass {upper} 9 0 0 0 100 2 9 9 {ALL}");
        let number = upper + 1;
        let (allow, hand) = (format!("allow 0 {number} 1"), format!("hand 0 0 {number}"));
        accept_all(&mut register, &[&create, &allow, &hand]);
    }
    let beside = format!("create 0 pass 0 9 0 0 0 100 2 9 9 {ALL}");
    accept_all(&mut register, &[&beside, "open 1 0 pass 5 9 0 0"]);
    assert_eq!(perform(&mut register, "check 1 0 9 0 0"), Ok(1));
    assert_eq!(perform(&mut register, "revoke 0 1"), Ok(5));
    let revoked = |number: usize| register.capabilities[number].revoked;
    assert_eq!([0, 1, 2, 3, 4, 5, 6].map(revoked), [false, true, true, true, true, true, false]);
    accepts(&register, "check 1 0 9 0 0", 0);
}

/// Another role of the creator does not count (§12.2.2).
#[test]
fn mistake_allow_is_measured_by_the_origin() {
    let mut register = with_capability();
    accept_all(&mut register, &[&format!("found 1 0 {ALL}"), "grant 1 9", "appoint 0 1"]);
    refuses(&register, "allow 0 0 512", 11);
    accepts(&register, "allow 0 0 32", 63);
    let create = format!("create 0 pass 0 9 0 0 0 100 2 9 9 {ALL}");
    accept_all(&mut register, &[&create]);
    refuses(&register, "allow 0 1 32", 11);
    accepts(&register, "allow 0 1 16", 16);
}

/// Only a lent role brings a permission back (§12.2.3).
#[test]
fn mistake_withdrawn_permission_is_not_revived() {
    let mut register = with_capability();
    let create = format!("create 0 role 0 9 0 0 0 100 9 9 9 {ALL}");
    let lent = [&create, "lend 0 1 1", "hand 0 0 1", "open 1 0 pass 1 9 0 0"];
    accept_all(&mut register, &lent);
    accept_all(&mut register, &["open 0 0 pass 0 9 0 0", "open 2 0 role 0 9 0 0"]);
    let yes = |register: &Register| {
        ["check 0 4 9 0 0", "check 1 4 9 0 0", "check 2 4 9 0 0"]
            .map(|line| perform(&mut register.clone(), line))
    };
    assert_eq!(yes(&register), [Ok(1), Ok(1), Ok(1)]);
    accept_all(&mut register, &["withdraw 0 4"]);
    assert_eq!(yes(&register), [Ok(0), Ok(0), Ok(0)]);
    accept_all(&mut register, &["grant 0 4"]);
    assert_eq!(yes(&register), [Ok(0), Ok(1), Ok(1)]);
    assert_eq!(register.capabilities[0].permissions, 15);
}

/// Refused openings are not counted (§12.2.4).
#[test]
fn mistake_refused_opening_is_no_use() {
    let mut register = with_capability();
    accept_all(&mut register, &["enrol 1 0", "open 0 0 pass 0 9 0 0"]);
    refuses(&register, "open 0 0 pass 0 9 0 0", 4);
    refuses(&register, "open 1 1 pass 0 9 0 0", 6);
    refuses(&register, "open 1 0 pass 0 24 0 0", 2);
    for line in ["open 0 0 pass 0 9 0 0", "open 1 1 pass 0 9 0 0", "open 1 0 pass 0 24 0 0"] {
        assert!(perform(&mut register, line).is_err());
        assert_eq!(register.capabilities[0].uses, 1);
    }
    accept_all(&mut register, &["open 1 0 pass 0 9 0 0"]);
    assert_eq!(register.capabilities[0].uses, 2);
    assert_eq!(perform(&mut register, "open 2 0 pass 0 9 0 0"), Err(10));
    assert_eq!(register.capabilities[0].uses, 2);
}

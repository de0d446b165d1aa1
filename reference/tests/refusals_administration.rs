//! Refusals of enrol, found, grant, withdraw, appoint, dismiss and clock, and
//! their order: where two apply, the earlier is answered.

mod common;

use common::{accept_all, accepts, perform, refuses, sample, ALL};
use reference::{apply, Request};

#[test]
fn enrol() {
    let register = sample();
    refuses(&register, "enrol 64 0", 2);
    refuses(&register, "enrol 5 8", 2);
    refuses(&register, "enrol 0 8", 2); // 4 applies too
    refuses(&register, "enrol 0 0", 4);
    refuses(&register, "enrol 0 1", 4);
    accepts(&register, "enrol 63 7", 0);
    let mut changed = register.clone();
    accept_all(&mut changed, &["enrol 63 7"]);
    assert_eq!(changed.domains[63], 7);
    assert_eq!(changed.enrolled, register.enrolled | 1 << 63);
}

#[test]
fn found() {
    let register = sample();
    refuses(&register, &format!("found 32 0 {ALL}"), 2);
    refuses(&register, &format!("found 31 8 {ALL}"), 2);
    refuses(&register, "found 31 0 16777216 65535 65535", 2);
    refuses(&register, "found 31 0 16777215 65536 65535", 2);
    refuses(&register, "found 31 0 16777215 65535 65536", 2);
    refuses(&register, "found 0 0 16777215 65535 65536", 2); // 4 applies too
    refuses(&register, &format!("found 0 7 {ALL}"), 4);
    accepts(&register, "found 31 7 0 0 0", 0);
    accepts(&register, &format!("found 31 7 {ALL}"), 0);
}

#[test]
fn grant() {
    let mut register = sample();
    refuses(&register, "grant 32 0", 2);
    refuses(&register, "grant 0 32", 2);
    refuses(&register, "grant 31 32", 2); // 3 applies too
    refuses(&register, "grant 31 0", 3);
    refuses(&register, "grant 0 4", 4);
    assert_eq!(perform(&mut register, "grant 0 31"), Ok(0));
    assert_eq!(register.roles[0].permissions, 1 << 31 | 0b11_0001);
}

#[test]
fn withdraw() {
    let mut register = sample();
    refuses(&register, "withdraw 32 0", 2);
    refuses(&register, "withdraw 0 32", 2);
    refuses(&register, "withdraw 31 32", 2); // 3 applies too
    refuses(&register, "withdraw 31 0", 3); // nothing would change either
    refuses(&register, "withdraw 0 6", 4);
    assert_eq!(perform(&mut register, "withdraw 0 5"), Ok(0));
    assert_eq!(register.roles[0].permissions, 0b1_0001);
}

/// The sweep cuts in rising number, revoked ones too, and by the authority,
/// so that a lent role which has the permission keeps it.
#[test]
fn withdraw_cuts_the_whole_tree() {
    let mut register = sample();
    accept_all(&mut register, &["revoke 2 2", "allow 3 3 65"]);
    let before = register.clone();
    assert_eq!(perform(&mut register, "withdraw 0 0"), Ok(0));
    let own = |number: usize| register.capabilities[number].permissions;
    assert_eq!([0, 1, 2, 3].map(own), [16, 0, 0, 65]);
    let mut rest = register.clone();
    for number in 0..4 {
        rest.capabilities[number].permissions = before.capabilities[number].permissions;
    }
    rest.roles[0].permissions |= 1;
    assert_eq!(rest, before);
}

/// Own permissions of a revoked capability are cut as well, down a chain, and
/// lent roles stay.
#[test]
fn withdraw_cuts_revoked_capabilities_and_keeps_lent_roles() {
    let mut register = sample();
    let lines = ["allow 1 1 16", "allow 2 2 16", "lend 0 0 1", "lend 1 1 1", "revoke 0 0"];
    accept_all(&mut register, &lines);
    accept_all(&mut register, &["withdraw 0 4"]);
    let own = |number: usize| register.capabilities[number].permissions;
    assert_eq!([0, 1, 2].map(own), [1, 1, 0]);
    let lent = |number: usize| register.capabilities[number].lent;
    assert_eq!([0, 1, 2].map(lent), [1, 1, 0]);
}

#[test]
fn appoint() {
    let mut register = sample();
    refuses(&register, "appoint 64 0", 2);
    refuses(&register, "appoint 0 32", 2);
    refuses(&register, "appoint 63 32", 2); // 3 applies too
    refuses(&register, "appoint 63 1", 3); // not enrolled: its domain is kept as 0
    refuses(&register, "appoint 0 31", 3);
    refuses(&register, "appoint 0 1", 5);
    refuses(&register, "appoint 3 0", 5);
    refuses(&register, "appoint 0 0", 4);
    assert_eq!(perform(&mut register, "appoint 2 0"), Ok(0));
    assert_eq!(register.roles[0].appointed, 0b111);
}

#[test]
fn dismiss() {
    let mut register = sample();
    refuses(&register, "dismiss 64 0", 2);
    refuses(&register, "dismiss 0 32", 2);
    refuses(&register, "dismiss 63 32", 2); // 3 applies too
    refuses(&register, "dismiss 63 1", 3); // nothing would change either
    refuses(&register, "dismiss 0 31", 3);
    refuses(&register, "dismiss 3 0", 4); // domains differ, but 5 is appoint's
    refuses(&register, "dismiss 2 0", 4);
    let capabilities = register.capabilities;
    assert_eq!(perform(&mut register, "dismiss 0 0"), Ok(0));
    assert_eq!(register.roles[0].appointed, 0b10);
    assert_eq!(register.capabilities, capabilities);
}

#[test]
fn clock() {
    let mut register = sample();
    refuses(&register, "clock 9", 13);
    refuses(&register, "clock 0", 13);
    accepts(&register, "clock 10", 0);
    assert_eq!(apply(&mut register, &Request::Clock { tick: 1 << 32 }), Err(2));
    assert_eq!(perform(&mut register, "clock 4294967295"), Ok(0));
    assert_eq!(register.clock, u32::MAX);
    refuses(&register, "clock 4294967294", 13);
}

//! Refusals of create, allow, lend, hand, amend, revoke and same, and their
//! order: a register and a line to which all refusals apply are put right one
//! by one, and each time the earliest that is left is answered.

mod common;

use common::{accept_all, accepts, perform, refuses, sample, ALL};
use reference::{Origin, Register};

/// The sample with 256 capabilities, in which capability 1 has no create, is
/// revoked, at its last tick and so out of life, open to hours 0 to 9 only, and
/// at its creation limit.
fn refusing_register() -> Register {
    let mut register = sample();
    let filler = format!("create 3 role 1 0 0 0 0 0 0 0 0 {ALL}");
    while register.count < 256 {
        accept_all(&mut register, &[&filler]);
    }
    register.clock = 50;
    for number in [1, 2] {
        register.capabilities[number].hours = 0x3ff;
        register.capabilities[number].revoked = true;
    }
    register.capabilities[1].permissions = 0;
    register.capabilities[1].creation_limit = 1;
    register
}

#[test]
fn create_in_order() {
    let mut register = refusing_register();
    let line = |user: u64, hour: u64, last: u64| {
        format!("create {user} pass 1 {hour} 1 1 5 {last} 3 1 1 1023 65535 65535")
    };
    refuses(&register, &line(64, 23, 51), 2);
    refuses(&register, &line(63, 24, 51), 2);
    refuses(&register, &line(63, 23, 4), 2); // first above last
    refuses(&register, &line(63, 23, 51), 3);
    refuses(&register, &line(0, 23, 51), 6); // no holder
    refuses(&register, &line(2, 23, 51), 6); // a holder without create
    register.capabilities[1].permissions = 1;
    refuses(&register, &line(0, 23, 51), 6); // no holder of create
    refuses(&register, &line(2, 23, 51), 7);
    register.capabilities[1].revoked = false;
    refuses(&register, &line(2, 23, 51), 8);
    register.clock = 10;
    refuses(&register, &line(2, 23, 51), 9);
    refuses(&register, &line(2, 9, 51), 10);
    register.capabilities[1].creation_limit = 2;
    refuses(&register, &line(2, 9, 51), 11);
    refuses(&register, &line(2, 9, 50), 12);
    register.count = 255;
    register.capabilities[255] = Default::default();
    accepts(&register, &line(2, 9, 50), 255);
    let unchanged = register.capabilities[1].creations;
    assert_eq!(perform(&mut register, &line(2, 9, 50)), Ok(255));
    assert_eq!(register.capabilities[1].creations, unchanged + 1);
}

#[test]
fn create_each_number_out_of_range() {
    let register = sample();
    refuses(&register, &format!("create 0 role 32 9 0 0 0 9 1 1 1 {ALL}"), 2);
    refuses(&register, &format!("create 0 pass 256 9 0 0 0 9 1 1 1 {ALL}"), 2);
    refuses(&register, &format!("create 0 role 0 24 0 0 0 9 1 1 1 {ALL}"), 2);
    refuses(&register, &format!("create 0 role 0 9 16 0 0 9 1 1 1 {ALL}"), 2);
    refuses(&register, &format!("create 0 role 0 9 0 16 0 9 1 1 1 {ALL}"), 2);
    refuses(&register, &format!("create 0 role 0 9 0 0 10 9 1 1 1 {ALL}"), 2);
    refuses(&register, &format!("create 0 role 0 9 0 0 0 9 65536 1 1 {ALL}"), 2);
    refuses(&register, &format!("create 0 role 0 9 0 0 0 9 1 65536 1 {ALL}"), 2);
    refuses(&register, &format!("create 0 role 0 9 0 0 0 9 1 1 65536 {ALL}"), 2);
    refuses(&register, "create 0 role 0 9 0 0 0 9 1 1 1 16777216 65535 65535", 2);
    refuses(&register, "create 0 role 0 9 0 0 0 9 1 1 1 16777215 65536 65535", 2);
    refuses(&register, "create 0 role 0 9 0 0 0 9 1 1 1 16777215 65535 65536", 2);
    accepts(&register, &format!("create 0 role 0 9 0 0 9 9 1 1 1 {ALL}"), 4); // never in life
}

#[test]
fn create_on_things_not_there() {
    let register = sample();
    refuses(&register, &format!("create 0 role 31 9 0 0 0 9 1 1 1 {ALL}"), 3);
    refuses(&register, &format!("create 0 pass 4 9 0 0 0 9 1 1 1 {ALL}"), 3);
    refuses(&register, &format!("create 63 role 0 9 0 0 0 9 1 1 1 {ALL}"), 3);
}

#[test]
fn create_on_a_role() {
    let mut register = sample();
    refuses(&register, "create 1 role 2 9 0 0 0 9 1 1 1 0 0 0", 6); // not appointed
    refuses(&register, "create 0 role 2 9 0 0 0 9 1 1 1 0 0 0", 6); // no create
    accept_all(&mut register, &["grant 2 0", "clock 4294967295"]);
    refuses(&register, "create 0 role 2 10 0 0 0 9 1 1 1 0 0 0", 9);
    refuses(&register, "create 0 role 2 9 1 0 0 9 1 1 1 0 0 0", 9);
    refuses(&register, "create 0 role 2 9 0 1 0 9 1 1 1 0 0 0", 9);
    refuses(&register, "create 0 role 2 9 0 0 0 9 1 1 1 1024 1 1", 11);
    refuses(&register, "create 0 role 2 9 0 0 0 9 1 1 1 1023 2 1", 11);
    refuses(&register, "create 0 role 2 9 0 0 0 9 1 1 1 1023 1 2", 11);
    accepts(&register, "create 0 role 2 9 0 0 0 9 65535 65535 65535 1023 1 1", 4);
}

#[test]
fn create_below_a_capability_stays_within_it() {
    let register = sample();
    let line = |life: &str, limits: &str| {
        format!("create 2 pass 1 9 1 1 {life} {limits} 16777215 65535 65535")
    };
    accepts(&register, &line("5 50", "3 2 1"), 4);
    accepts(&register, &line("49 50", "0 0 0"), 4); // a life wholly to come
    accepts(&register, &line("5 10", "0 0 0"), 4); // a life that ends now
    accepts(&register, &line("50 50", "0 0 0"), 4); // lives without a tick
    accepts(&register, &line("5 5", "0 0 0"), 4);
    refuses(&register, &line("4 50", "3 2 1"), 11);
    refuses(&register, &line("5 51", "3 2 1"), 11);
    refuses(&register, &line("4 4", "3 2 1"), 11);
    refuses(&register, &line("51 51", "3 2 1"), 11);
    refuses(&register, &line("5 50", "4 2 1"), 11);
    refuses(&register, &line("5 50", "3 3 1"), 11);
    refuses(&register, &line("5 50", "3 2 2"), 11);
}

#[test]
fn create_makes_an_empty_capability() {
    let mut register = sample();
    let line = "create 2 pass 1 9 1 1 6 49 3 2 1 3 5 9";
    assert_eq!(perform(&mut register, line), Ok(4));
    let new = &register.capabilities[4];
    assert_eq!((new.origin, new.creator), (Origin::Capability(1), 2));
    assert_eq!((new.permissions, new.lent, new.holders), (0, 0, 0));
    assert_eq!((new.first, new.last), (6, 49));
    assert_eq!((new.use_limit, new.creation_limit, new.hop_limit), (3, 2, 1));
    assert_eq!((new.uses, new.creations, new.hops), (0, 0, 0));
    assert_eq!((new.hours, new.places, new.devices, new.revoked), (3, 5, 9, false));
    assert_eq!(register.capabilities[1].creations, 2);
    refuses(&register, line, 10);
}

#[test]
fn allow_in_order() {
    let mut register = sample();
    register.capabilities[1].revoked = true;
    register.capabilities[2].revoked = true;
    refuses(&register, "allow 63 256 4294967295", 2);
    refuses(&register, "allow 64 1 4294967295", 2);
    refuses(&register, "allow 63 1 4294967295", 3);
    refuses(&register, "allow 0 4 4294967295", 3);
    refuses(&register, "allow 0 1 4294967295", 6);
    refuses(&register, "allow 2 1 0", 6);
    refuses(&register, "allow 1 1 4294967295", 7);
    refuses(&register, "allow 1 1 0", 7);
    register.capabilities[1].revoked = false;
    refuses(&register, "allow 1 1 4294967295", 11);
    refuses(&register, "allow 1 1 32", 11);
    refuses(&register, "allow 1 1 49", 11);
    refuses(&register, "allow 1 1 0", 4);
    refuses(&register, "allow 1 1 1", 4);
    accepts(&register, "allow 1 1 16", 17);
    accepts(&register, "allow 1 1 17", 17);
}

#[test]
fn lend_in_order() {
    let mut register = sample();
    register.capabilities[2].revoked = true;
    refuses(&register, "lend 63 256 4294967295", 2);
    refuses(&register, "lend 64 0 1", 2);
    refuses(&register, "lend 63 0 4294967295", 3);
    refuses(&register, "lend 0 4 4294967295", 3);
    refuses(&register, "lend 0 2 4294967295", 6);
    refuses(&register, "lend 2 2 4294967295", 7);
    refuses(&register, "lend 2 2 0", 7);
    refuses(&register, "lend 1 1 1", 11); // not lent to capability 0
    refuses(&register, "lend 0 0 2", 11); // founded, but another
    refuses(&register, "lend 0 0 8", 11); // not founded
    refuses(&register, "lend 0 0 5", 11); // user 0 is appointed to role 2 too
    refuses(&register, "lend 0 0 0", 4);
    assert_eq!(perform(&mut register, "lend 0 0 1"), Ok(49));
    refuses(&register, "lend 0 0 1", 4);
    refuses(&register, "lend 1 1 3", 11);
    assert_eq!(perform(&mut register, "lend 1 1 1"), Ok(49));
    accepts(&register, "allow 1 1 32", 49);
}

#[test]
fn hand_in_order() {
    let mut register = sample();
    register.capabilities[1].revoked = true;
    register.capabilities[2].revoked = true;
    refuses(&register, "hand 64 2 1", 2);
    refuses(&register, "hand 0 64 1", 2);
    refuses(&register, "hand 63 63 256", 2);
    refuses(&register, "hand 63 2 1", 3);
    refuses(&register, "hand 0 63 1", 3);
    refuses(&register, "hand 0 2 4", 3);
    refuses(&register, "hand 0 2 1", 6);
    refuses(&register, "hand 1 2 1", 7);
    register.capabilities[1].revoked = false;
    refuses(&register, "hand 1 2 1", 4); // hops are at their limit too
    refuses(&register, "hand 1 0 1", 10);
    assert_eq!(perform(&mut register, "hand 0 3 0"), Ok(2)); // another domain
    assert_eq!(register.capabilities[0].holders, 0b1010);
    assert_eq!(register.capabilities[0].hops, 2);
}

#[test]
fn amend_in_order() {
    let mut register = sample();
    register.capabilities[1].revoked = true;
    register.capabilities[2].revoked = true;
    refuses(&register, "amend 63 1 65536", 2);
    refuses(&register, "amend 63 1 -65536", 2);
    refuses(&register, "amend 63 1 -4294967295", 2);
    refuses(&register, "amend 64 1 0", 2);
    refuses(&register, "amend 0 256 0", 2);
    refuses(&register, "amend 63 1 0", 3);
    refuses(&register, "amend 0 4 0", 3);
    refuses(&register, "amend 0 1 0", 6);
    refuses(&register, "amend 1 1 0", 7);
    refuses(&register, "amend 1 1 65535", 7);
    register.capabilities[1].revoked = false;
    refuses(&register, "amend 1 1 0", 4);
    refuses(&register, "amend 1 1 -4", 10);
    refuses(&register, "amend 1 1 -65535", 10);
    refuses(&register, "amend 1 1 2", 11);
    refuses(&register, "amend 1 1 65535", 11);
    refuses(&register, "amend 3 3 1", 11);
    accepts(&register, "amend 1 1 1", 4);
    accepts(&register, "amend 3 3 -65535", 0);
}

/// The limits below are lowered, those of revoked capabilities too, and uses
/// stay (§6.14.2).
#[test]
fn amend_cuts_all_below() {
    let mut register = sample();
    let lines = ["open 0 1 pass 0 9 0 0", "open 1 1 pass 0 9 0 0", "open 2 1 pass 0 9 0 0"];
    accept_all(&mut register, &lines);
    accept_all(&mut register, &["revoke 2 2"]);
    assert_eq!(perform(&mut register, "amend 0 0 -2"), Ok(2));
    let limits = |register: &Register| [0, 1, 2, 3].map(|n| register.capabilities[n].use_limit);
    assert_eq!(limits(&register), [2, 2, 1, 65_535]);
    assert_eq!(register.capabilities[0].uses, 3);
    assert_eq!(perform(&mut register, "amend 0 0 -2"), Ok(0));
    assert_eq!(limits(&register), [0, 0, 0, 65_535]);
    assert_eq!(perform(&mut register, "amend 0 0 9"), Ok(9));
    assert_eq!(limits(&register), [9, 0, 0, 65_535]);
    assert_eq!(register.capabilities[0].uses, 3);
}

#[test]
fn revoke_in_order() {
    let mut register = sample();
    register.capabilities[1].revoked = true;
    register.capabilities[2].revoked = true;
    refuses(&register, "revoke 64 1", 2);
    refuses(&register, "revoke 63 256", 2);
    refuses(&register, "revoke 63 1", 3);
    refuses(&register, "revoke 0 4", 3);
    refuses(&register, "revoke 2 1", 6);
    refuses(&register, "revoke 1 1", 7);
    refuses(&register, "revoke 0 1", 7);
    refuses(&register, "revoke 1 0", 6); // appointed and a holder
    accepts(&register, "revoke 0 0", 1);
    register.capabilities[2].revoked = false;
    register.capabilities[1].revoked = false;
    accepts(&register, "revoke 0 2", 1);
    accepts(&register, "revoke 1 2", 1);
    accepts(&register, "revoke 2 2", 1);
    refuses(&register, "revoke 3 2", 6);
    accepts(&register, "revoke 0 0", 3);
}

#[test]
fn same_in_order_and_its_values() {
    let mut register = sample();
    refuses(&register, "same 256 4", 2);
    refuses(&register, "same 4 256", 2);
    refuses(&register, "same 0 4", 3);
    refuses(&register, "same 4 0", 3);
    accepts(&register, "same 2 2", 1);
    accepts(&register, "same 0 1", 0);
    accepts(&register, "same 2 3", 0); // both without authority, other domains
    let twin = format!("create 1 role 0 9 1 1 5 100 4 4 4 {ALL}");
    accept_all(&mut register, &[&twin, "allow 1 4 1"]);
    accepts(&register, "same 0 4", 0);
    accept_all(&mut register, &["allow 1 4 16"]);
    accepts(&register, "same 0 4", 1);
    accepts(&register, "same 4 0", 1);
    accept_all(&mut register, &["revoke 1 4", "lend 0 0 1", "allow 0 0 32"]);
    accepts(&register, "same 0 4", 0);
    accept_all(&mut register, &["withdraw 0 5"]);
    accepts(&register, "same 0 4", 1);
    let lines = ["grant 2 0", "create 0 role 2 9 0 0 5 100 4 4 4 1023 1 1"];
    accept_all(&mut register, &[lines[0], lines[1], lines[1], "grant 2 4", "lend 0 5 4"]);
    accepts(&register, "same 5 6", 0);
    accept_all(&mut register, &["allow 0 6 17"]);
    accepts(&register, "same 5 6", 1); // one with a lent role
    accepts(&register, "same 0 5", 0); // other contexts
}

//! Each rule (§4) broken by itself, and what the rules do not forbid.

mod common;

use common::{accept_all, sample};
use reference::generate::{damage_register, register as random_register};
use reference::random::Random;
use reference::{apply, encode, journal, load, save, well_formed};
use reference::{Capability, Origin, Register, Request};

/// A name and a change to the register of [`rich`].
type Edit = (&'static str, fn(&mut Register));

/// The sample with role 5, which nobody has; with capability 4 on role 0, in
/// which all is 0; and with sessions 0 on role 2 and 1 on capability 0.
fn sample_with_sessions() -> Register {
    let mut register = sample();
    let lines = [
        "found 5 0 1 1 1",
        "create 0 role 0 9 0 0 0 0 0 0 0 0 0 0",
        "open 0 0 role 2 9 0 0",
        "open 1 1 pass 0 9 1 1",
    ];
    accept_all(&mut register, &lines);
    register
}

/// The register must break a rule: it is refused with 15 by every call and by
/// save, nothing is touched, and its image does not load as it.
fn assert_broken(name: &str, mut register: Register) {
    assert!(!well_formed(&register), "{name}: accepted");
    let before = register.clone();
    assert_eq!(apply(&mut register, &Request::Clock { tick: u64::MAX }), Err(15), "{name}");
    assert_eq!(register, before, "{name}");
    let mut buffer = [0x55; 14_000];
    assert_eq!(save(&register, &mut buffer), Err(15), "{name}");
    assert_eq!(save(&register, &mut buffer[..0]), Err(15), "{name}");
    assert!(buffer.iter().all(|&byte| byte == 0x55), "{name}");
    assert_ne!(load(&encode(&register)), Ok(before), "{name}");
}

fn assert_all_broken(edits: &[Edit]) {
    for (name, edit) in edits {
        let mut register = sample_with_sessions();
        edit(&mut register);
        assert_broken(name, register);
    }
}

#[test]
fn users() {
    assert_all_broken(&[
        ("domain out of range", |r| r.domains[2] = 8),
        ("domain far out of range", |r| r.domains[2] = 255),
        ("domain of a user not enrolled", |r| r.domains[40] = 1),
        ("a creator no longer enrolled", |r| {
            r.enrolled &= !(1 << 2);
            r.capabilities[1].holders = 0;
            r.capabilities[1].hops = 0;
        }),
    ]);
}

#[test]
fn roles() {
    assert_all_broken(&[
        ("domain out of range", |r| r.roles[5].domain = 8),
        ("hours out of range", |r| r.roles[5].hours |= 1 << 24),
        ("hours far out of range", |r| r.roles[5].hours |= 1 << 31),
        ("appointed, not enrolled", |r| r.roles[0].appointed |= 1 << 40),
        ("appointed, of another domain", |r| r.roles[0].appointed |= 1 << 3),
        ("the role changes domain", |r| r.roles[0].domain = 1),
        ("not founded, with masks", |r| r.roles[5].founded = false),
        ("not founded, with a domain", |r| r.roles[9].domain = 1),
        ("not founded, with permissions", |r| r.roles[9].permissions = 1),
        ("not founded, with hours", |r| r.roles[9].hours = 1),
        ("not founded, with places", |r| r.roles[9].places = 1),
        ("not founded, with devices", |r| r.roles[9].devices = 1),
        ("not founded, with appointed", |r| r.roles[9].appointed = 1),
    ]);
}

#[test]
fn things_kept_for_a_capability_not_there() {
    assert_all_broken(&[
        ("count above 256", |r| r.count = 257),
        ("count far above 256", |r| r.count = 65_535),
        ("origin role", |r| r.capabilities[5].origin = Origin::Role(1)),
        ("origin pass", |r| r.capabilities[255].origin = Origin::Capability(0)),
        ("creator", |r| r.capabilities[5].creator = 1),
        ("permissions", |r| r.capabilities[5].permissions = 1),
        ("lent", |r| r.capabilities[5].lent = 1),
        ("holders", |r| r.capabilities[5].holders = 1),
        ("first", |r| r.capabilities[5].first = 1),
        ("last", |r| r.capabilities[5].last = 1),
        ("use limit", |r| r.capabilities[5].use_limit = 1),
        ("uses", |r| r.capabilities[5].uses = 1),
        ("creation limit", |r| r.capabilities[5].creation_limit = 1),
        ("creations", |r| r.capabilities[5].creations = 1),
        ("hop limit", |r| r.capabilities[5].hop_limit = 1),
        ("hops", |r| r.capabilities[5].hops = 1),
        ("hours", |r| r.capabilities[5].hours = 1),
        ("places", |r| r.capabilities[5].places = 1),
        ("devices", |r| r.capabilities[5].devices = 1),
        ("revoked", |r| r.capabilities[255].revoked = true),
        ("a pass beyond the count", |r| r.count = 3),
    ]);
}

#[test]
fn names_of_a_capability() {
    assert_all_broken(&[
        ("origin role not founded", |r| r.capabilities[4].origin = Origin::Role(31)),
        ("origin role out of range", |r| r.capabilities[4].origin = Origin::Role(32)),
        ("origin role far out of range", |r| r.capabilities[4].origin = Origin::Role(255)),
        ("origin pass not there", |r| {
            r.capabilities[4].origin = Origin::Capability(5);
        }),
        ("origin is the pass itself", |r| {
            r.capabilities[2].origin = Origin::Capability(2);
            r.capabilities[1].creations = 0;
            r.capabilities[2].creations = 1;
        }),
        ("origin has a larger number", |r| {
            r.capabilities[1].origin = Origin::Capability(3);
            r.capabilities[1].permissions = 0;
            r.capabilities[0].creations = 0;
            r.capabilities[3].creations = 1;
        }),
        ("two passes are each other's origin", |r| {
            r.capabilities[1] = Capability { holders: 0, hops: 0, ..r.capabilities[2] };
            r.capabilities[1].origin = Origin::Capability(2);
            r.capabilities[0].creations = 0;
            r.capabilities[1].creations = 1;
            r.capabilities[2].creations = 1;
        }),
        ("creator not enrolled", |r| r.capabilities[4].creator = 40),
        ("creator out of range", |r| r.capabilities[4].creator = 64),
        ("holder not enrolled", |r| {
            r.capabilities[0].holders |= 1 << 40;
            r.capabilities[0].hops += 1;
        }),
        ("lent role not founded", |r| r.capabilities[4].lent = 1 << 31),
    ]);
}

#[test]
fn content_of_a_capability() {
    assert_all_broken(&[
        ("own permission beyond a role", |r| r.capabilities[4].permissions = 1 << 6),
        ("own permission beyond a pass", |r| r.capabilities[1].permissions |= 1 << 5),
        ("another role lent", |r| r.capabilities[4].lent = 1 << 1),
        ("its role and another lent", |r| r.capabilities[4].lent = 0b101),
        ("role lent that its origin lacks", |r| r.capabilities[1].lent = 1),
        ("hours out of range", |r| r.capabilities[4].hours = 1 << 24),
        ("hours beyond the origin", |r| r.roles[0].hours = 0x7f_ffff),
        ("places beyond the origin", |r| r.capabilities[0].places = 0x7fff),
        ("devices beyond the origin", |r| r.capabilities[0].devices = 0x7fff),
        ("origin revoked", |r| r.capabilities[1].revoked = true),
    ]);
}

#[test]
fn life_limits_and_counts_of_a_capability() {
    assert_all_broken(&[
        ("starts before the origin", |r| r.capabilities[1].first = 4),
        ("ends after the origin", |r| r.capabilities[1].last = 101),
        ("never in life, but after the origin", |r| {
            r.capabilities[2].first = 51;
            r.capabilities[2].last = 51;
        }),
        ("first above last", |r| r.capabilities[4].first = 1),
        ("use limit", |r| r.capabilities[1].use_limit = 5),
        ("creation limit", |r| r.capabilities[1].creation_limit = 5),
        ("hop limit", |r| r.capabilities[1].hop_limit = 5),
        ("hops without a holder", |r| r.capabilities[0].hops = 2),
        ("a holder without hop", |r| r.capabilities[0].hops = 0),
        ("hops above their limit", |r| {
            r.capabilities[4].holders = 1;
            r.capabilities[4].hops = 1;
        }),
        ("creations of none", |r| r.capabilities[2].creations = 1),
        ("creations forgotten", |r| r.capabilities[0].creations = 0),
        ("creations above their limit", |r| {
            r.capabilities[1].creation_limit = 0;
            r.capabilities[2].creation_limit = 0;
        }),
    ]);
}

#[test]
fn sessions() {
    assert_all_broken(&[
        ("user not enrolled", |r| r.sessions[0].user = 40),
        ("user out of range", |r| r.sessions[0].user = 64),
        ("role not founded", |r| r.sessions[0].on = Origin::Role(31)),
        ("role out of range", |r| r.sessions[0].on = Origin::Role(32)),
        ("pass not there", |r| r.sessions[0].on = Origin::Capability(5)),
        ("hour out of range", |r| r.sessions[1].hour = 24),
        ("hour far out of range", |r| r.sessions[1].hour = 255),
        ("place out of range", |r| r.sessions[1].place = 16),
        ("device out of range", |r| r.sessions[1].device = 16),
        ("hour not admitted", |r| r.sessions[0].hour = 10),
        ("place not admitted", |r| r.sessions[0].place = 1),
        ("device not admitted", |r| r.sessions[0].device = 1),
        ("pass that admits nothing", |r| r.sessions[1].on = Origin::Capability(4)),
        ("closed, with a user", |r| r.sessions[9].user = 1),
        ("closed, on another role", |r| r.sessions[9].on = Origin::Role(1)),
        ("closed, on a pass", |r| r.sessions[9].on = Origin::Capability(0)),
        ("closed, with an hour", |r| r.sessions[9].hour = 1),
        ("closed, with a place", |r| r.sessions[9].place = 1),
        ("closed, with a device", |r| r.sessions[9].device = 1),
        ("closed, with all of it", |r| r.sessions[0].active = false),
    ]);
}

#[test]
fn what_the_rules_do_not_forbid() {
    let edits: [Edit; 17] = [
        ("nothing changed", |_| ()),
        ("fresh", |r| *r = Register::fresh()),
        ("clock before all lives", |r| r.clock = 0),
        ("clock after all lives", |r| r.clock = u32::MAX),
        ("uses above their limit", |r| r.capabilities[0].uses = 65_535),
        ("no uses, though a session is open", |r| r.capabilities[0].uses = 0),
        ("the session's user holds nothing", |r| r.sessions[1].user = 3),
        ("the session's user is not appointed", |r| r.sessions[0].user = 3),
        ("the session's pass is revoked", |r| {
            r.capabilities[..3].iter_mut().for_each(|capability| capability.revoked = true);
        }),
        ("a pass below is revoked", |r| r.capabilities[2].revoked = true),
        ("first is last", |r| r.capabilities[2].first = 50),
        ("first is last, where the origin ends", |r| {
            r.capabilities[4].first = u32::MAX;
            r.capabilities[4].last = u32::MAX;
        }),
        ("the session's pass is never in life", |r| {
            r.capabilities[2].first = 50;
            r.sessions[1].on = Origin::Capability(2);
        }),
        ("another creator", |r| r.capabilities[1].creator = 3),
        ("a role has more permissions", |r| r.roles[0].permissions = u32::MAX),
        ("just its role is lent", |r| r.capabilities[4].lent = 1),
        ("an enrolled user more", |r| r.enrolled |= 1 << 40),
    ];
    for (name, edit) in edits {
        let mut register = sample_with_sessions();
        edit(&mut register);
        assert!(well_formed(&register), "{name}");
        assert_eq!(load(&encode(&register)).as_ref(), Ok(&register), "{name}");
        assert_eq!(apply(&mut register, &Request::Clock { tick: u64::MAX }), Err(2), "{name}");
    }
}

/// A register keeps the rules exactly when its image loads as it: the reader
/// and the test must agree on whatever one changed field makes of a register.
#[test]
fn damaged_registers_are_judged_as_their_images_are() {
    let mut random = Random::new(15);
    let mut verdicts = [0; 2];
    for _ in 0..300 {
        let whole = random_register(&mut random);
        assert!(well_formed(&whole));
        for _ in 0..60 {
            let mut register = whole.clone();
            damage_register(&mut random, &mut register);
            let kept = well_formed(&register);
            verdicts[usize::from(kept)] += 1;
            assert_eq!(load(&encode(&register)) == Ok(register), kept);
        }
    }
    assert!(verdicts.iter().all(|&verdict| verdict > 2_000), "{verdicts:?}");
}

#[test]
fn journal_from_a_broken_register_answers_15() {
    let mut register = sample_with_sessions();
    register.domains[40] = 1;
    let input = b"clock 10\nclock\nrevoke 64 0\nclock 11";
    assert_eq!(journal::run_from(register, input), b"no 15\nno 1\nno 15\nno 1\n");
}

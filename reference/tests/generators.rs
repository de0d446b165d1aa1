//! The generators do what comparisons rely on.

mod common;

use common::{after, assert_met};
use reference::generate::{self, Border, Borders, Profile};
use reference::random::Random;
use reference::{apply_trusted, encode, parse, well_formed, Origin, Register, Request};

#[test]
fn the_same_seed_gives_the_same_numbers() {
    let mut random = Random::new(0);
    let first = [random.bits(), random.bits(), random.bits()];
    // The published first numbers of splitmix64 with the seed 0.
    assert_eq!(first, [0xe220_a839_7b1d_cdaf, 0x6e78_9e6a_a1b9_65f4, 0x06c4_5d18_8009_454f]);
    let list = |seed| {
        let mut random = Random::new(seed);
        generate::requests(&mut random, &Register::fresh(), &Profile::small(), 300)
    };
    assert_eq!(list(1), list(1));
    assert_ne!(list(1), list(2));
}

#[test]
fn draws_stay_in_their_ranges() {
    let mut random = Random::new(60);
    for round in 0..2_000_u64 {
        let mask = random.bits() & random.bits();
        assert_eq!(random.subset(mask) & !mask, 0);
        let bit = random.bit(mask).expect("the mask has a bit");
        assert_eq!(mask >> bit & 1, 1);
        assert!(random.below(round + 1) <= round);
        assert!((round..=2 * round).contains(&random.between(round, 2 * round)));
    }
    assert_eq!(random.bit(0), None);
    assert_eq!((random.below(0), random.between(5, 5)), (0, 5));
    assert!(random.chance(1, 1) && !random.chance(0, 1));
}

#[test]
fn random_registers_keep_the_rules_and_differ() {
    let mut random = Random::new(61);
    let (mut sessions, mut on_capabilities, mut deep, mut revoked, mut overused) = (0, 0, 0, 0, 0);
    let (mut lifeless, mut ended) = (0, 0);
    for _ in 0..1_000 {
        let register = generate::register(&mut random);
        assert!(well_formed(&register));
        for session in register.sessions.iter().filter(|session| session.active) {
            sessions += 1;
            on_capabilities += u32::from(matches!(session.on, Origin::Capability(_)));
        }
        for capability in &register.capabilities[..usize::from(register.count)] {
            deep += u32::from(matches!(capability.origin, Origin::Capability(_)));
            revoked += u32::from(capability.revoked);
            overused += u32::from(capability.uses > capability.use_limit);
            lifeless += u32::from(capability.first == capability.last);
            ended += u32::from(capability.last == register.clock);
        }
    }
    let seen = [sessions, on_capabilities, deep, revoked, overused, lifeless, ended];
    assert!(seen.iter().all(|&count| count > 1_000), "{seen:?}");
}

#[test]
fn damage_changes_images_and_registers() {
    let mut random = Random::new(62);
    let (mut images, mut registers) = (0, 0);
    for _ in 0..500 {
        let register = generate::register(&mut random);
        let mut image = encode(&register);
        generate::damage_image(&mut random, &mut image);
        images += u32::from(image != encode(&register));
        let mut other = register.clone();
        generate::damage_register(&mut random, &mut other);
        registers += u32::from(other != register);
    }
    assert!(images > 400 && registers > 400, "{images}, {registers}");
    let mut nothing = Vec::new();
    (0..100).for_each(|_| generate::damage_image(&mut random, &mut nothing));
}

#[test]
fn short_images_are_of_every_kind() {
    let mut random = Random::new(69);
    let image = [7; 100];
    let (mut zeros, mut single, mut starts) = ([0; 28], 0, 0);
    for _ in 0..4_000 {
        let short = generate::short_image(&mut random, &image);
        assert!(short.len() <= 27);
        match short[..] {
            _ if short.iter().all(|&byte| byte == 0) => zeros[short.len()] += 1,
            [_] => single += 1,
            _ => starts += 1,
        }
    }
    assert!(zeros.iter().all(|&count| count >= 30), "{zeros:?}");
    assert!(zeros[0] >= 800 && single >= 300 && starts >= 300, "{} {single} {starts}", zeros[0]);
    (0..100).for_each(|_| drop(generate::short_image(&mut random, &[])));
}

/// Capability 0 of user 0, who holds it with permission 0, has a life from 10 to
/// 12, and session 1 is open on it; session 2 is open on its role.
fn with_sessions() -> Register {
    after(&[
        "enrol 0 0",
        "enrol 1 0",
        "found 0 0 16777215 65535 65535",
        "grant 0 0",
        "appoint 0 0",
        "create 0 role 0 9 0 0 10 12 9 9 9 16777215 65535 65535",
        "allow 0 0 1",
        "hand 0 0 0",
        "clock 10",
        "open 1 0 pass 0 9 0 0",
        "open 2 0 role 0 9 0 0",
    ])
}

/// What the lines count on the register at this tick, each from there.
fn counted(register: &Register, tick: u32, lines: [&str; 3]) -> [[u64; 3]; 6] {
    let register = Register { clock: tick, ..register.clone() };
    let mut borders = Borders::default();
    for line in lines {
        borders.add(&register, &parse(line.as_bytes()).expect("a request"));
    }
    Border::ALL.map(|border| borders.met(border))
}

/// The counts if a create, an open and a check meet this border and no other.
fn only(border: Border) -> [[u64; 3]; 6] {
    Border::ALL.map(|other| [u64::from(other == border); 3])
}

const NOTHING: [[u64; 3]; 6] = [[0; 3]; 6];

#[test]
fn borders_are_counted_where_the_life_decides() {
    let mut register = with_sessions();
    let lines =
        ["create 0 pass 0 9 0 0 10 10 9 9 9 1 1 1", "open 0 0 pass 0 9 0 0", "check 1 0 9 0 0"];
    assert_eq!(counted(&register, 10, lines), only(Border::First));
    assert_eq!(counted(&register, 11, lines), only(Border::BeforeLast));
    assert_eq!(counted(&register, 12, lines), only(Border::Last));
    for tick in [0, 9, 13, u32::MAX] {
        assert_eq!(counted(&register, tick, lines), NOTHING, "{tick}");
    }
    register.capabilities[0].last = 10;
    assert_eq!(counted(&register, 10, lines), only(Border::Never));
    assert_eq!(counted(&register, 9, lines), NOTHING);
    assert_eq!(counted(&register, 11, lines), NOTHING);
    register.capabilities[0].last = u32::MAX;
    assert_eq!(counted(&register, u32::MAX - 1, lines), only(Border::BeforeLast));
    assert_eq!(counted(&register, u32::MAX, lines), only(Border::LastOfAll));
    let lines =
        ["create 0 role 0 9 0 0 10 10 9 9 9 1 1 1", "open 0 0 role 0 9 0 0", "check 2 0 9 0 0"];
    assert_eq!(counted(&register, u32::MAX - 1, lines), NOTHING);
    assert_eq!(counted(&register, u32::MAX, lines), only(Border::RoleAtEnd));
}

/// Lines that are refused, or say no, at whatever tick.
#[test]
fn borders_are_not_counted_where_more_is_amiss() {
    let mut register = with_sessions();
    let amiss = [
        ["create 1 pass 0 9 0 0 10 10 9 9 9 1 1 1", "open 0 1 pass 0 9 0 0", "check 1 4 9 0 0"],
        ["create 0 pass 0 9 0 0 10 13 9 9 9 1 1 1", "open 1 0 pass 0 9 0 0", "check 3 0 9 0 0"],
        ["create 0 pass 1 9 0 0 10 10 9 9 9 1 1 1", "open 0 0 pass 256 9 0 0", "check 64 0 9 0 0"],
        ["create 1 role 0 9 0 0 10 10 9 9 9 1 1 1", "open 0 1 role 0 9 0 0", "check 2 4 9 0 0"],
    ];
    for lines in amiss {
        for tick in [10, 11, 12, u32::MAX] {
            assert_eq!(counted(&register, tick, lines), NOTHING, "{lines:?} at {tick}");
        }
    }
    register.capabilities[0].last = 10;
    let longer = ["create 0 pass 0 9 0 0 10 11 9 9 9 1 1 1", "close 1", "revoke 0 0"];
    assert_eq!(counted(&register, 10, longer), NOTHING);
}

/// Counts the borders that the requests meet, from this register on.
fn count_requests(borders: &mut Borders, start: &Register, list: &[Request]) {
    let mut register = start.clone();
    for request in list {
        borders.add(&register, request);
        let _ = apply_trusted(&mut register, request);
    }
}

#[test]
fn requests_of_every_profile_meet_the_borders() {
    let profiles =
        [Profile::small(), Profile::crowded(), Profile::deep(), Profile::wide(), Profile::wild()];
    for (seed, profile) in (63..).zip(&profiles) {
        let mut random = Random::new(seed);
        let mut borders = Borders::default();
        for _ in 0..200 {
            let list = generate::requests(&mut random, &Register::fresh(), profile, 800);
            count_requests(&mut borders, &Register::fresh(), &list);
        }
        assert_met(&borders, Border::BeforeLast, [200, 150, 50]);
        assert_met(&borders, Border::Last, [60, 50, 15]);
    }
}

/// Here sessions are open on lives without a tick as well.
#[test]
fn requests_on_random_registers_meet_the_borders() {
    let mut random = Random::new(68);
    let mut borders = Borders::default();
    for _ in 0..1_000 {
        let register = generate::register(&mut random);
        let list = generate::requests(&mut random, &register, &Profile::wide(), 40);
        count_requests(&mut borders, &register, &list);
    }
    assert_met(&borders, Border::First, [6, 8, 4]);
    assert_met(&borders, Border::BeforeLast, [18, 34, 20]);
    assert_met(&borders, Border::Last, [2, 5, 4]);
    assert_met(&borders, Border::LastOfAll, [10, 20, 15]);
    assert_met(&borders, Border::Never, [2, 8, 6]);
    assert_met(&borders, Border::RoleAtEnd, [2, 11, 1]);
}

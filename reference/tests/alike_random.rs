//! Same over random registers (§6.17.2 to §6.17.6): it divides the capabilities into kinds,
//! and two of one kind are of the same use to whoever holds both.

mod common;

use common::contexts::{inquiry, opening};
use common::{expect, perform};
use reference::generate::{self, Profile};
use reference::random::Random;
use reference::register::has;
use reference::{
    apply, apply_trusted, well_formed, Capability, Context, Origin, Register, Request, Session,
};

/// A random register, or one which requests made; both have twins.
fn any_register(random: &mut Random) -> Register {
    if random.chance(1, 2) {
        return generate::register(random);
    }
    let profile = random.pick(&[Profile::small, Profile::crowded, Profile::wide])();
    let mut register = Register::fresh();
    for request in generate::requests(random, &Register::fresh(), &profile, 500) {
        let _ = apply_trusted(&mut register, &request);
    }
    register
}

/// What same answers of all pairs of the first so many capabilities; it must not
/// change anything.
fn all_pairs(register: &Register, most: usize) -> Vec<Vec<bool>> {
    assert!(well_formed(register));
    let mut copy = register.clone();
    let mut same = |first: u8, second: u8| {
        let request = Request::Same { first: first.into(), second: second.into() };
        match apply_trusted(&mut copy, &request) {
            Ok(value @ 0..=1) => value == 1,
            other => panic!("{other:?}"),
        }
    };
    let numbers: Vec<u8> = register.numbers().take(most).collect();
    let mut row = |first| numbers.iter().map(|&second| same(first, second)).collect();
    let rows = numbers.iter().map(|&first| row(first)).collect();
    assert!(copy == *register, "changed by same");
    rows
}

/// The domain, worked out by going up, and the authority, bit by bit.
fn domain_and_authority(register: &Register, number: u8) -> (u8, u32) {
    let mut role = register.capability(number).origin;
    while let Origin::Capability(upper) = role {
        role = register.capability(upper).origin;
    }
    let Origin::Role(role) = role else { unreachable!() };
    let Capability { permissions, lent, .. } = *register.capability(number);
    let carried = |bit: &u8| {
        let by_role = |role: u8| has(lent, role) && has(register.role(role).permissions, *bit);
        has(permissions, *bit) || (0..32).any(by_role)
    };
    let authority = (0..32).filter(carried).fold(0, |mask, bit| mask | 1 << bit);
    (register.role(role).domain, authority)
}

/// A capability with nothing left but what is compared besides domain and
/// authority.
fn bare(capability: &Capability) -> Capability {
    Capability {
        origin: Origin::Role(0),
        creator: 0,
        permissions: 0,
        lent: 0,
        holders: 0,
        uses: 0,
        creations: 0,
        hops: 0,
        revoked: false,
        ..*capability
    }
}

/// Each answer is that of the test's own comparison, by records that have lost
/// what does not count.
#[test]
fn same_is_equality_of_what_counts() {
    let mut random = Random::new(80);
    let (mut equal, mut unequal) = (0, 0);
    for _ in 0..150 {
        let register = any_register(&mut random);
        let keys: Vec<_> = register
            .numbers()
            .map(|n| (domain_and_authority(&register, n), bare(register.capability(n))))
            .collect();
        for (first, row) in all_pairs(&register, 64).iter().enumerate() {
            for (second, &answer) in row.iter().enumerate() {
                assert_eq!(answer, keys[first] == keys[second], "{first} {second}");
                equal += u32::from(answer && first != second);
                unequal += u32::from(!answer);
            }
        }
    }
    assert!(equal >= 1_000 && unequal >= 100_000, "{equal}, {unequal}");
}

/// Reflexive, symmetric and transitive.
#[test]
fn same_is_an_equivalence() {
    let mut random = Random::new(81);
    let mut chains = 0;
    for _ in 0..150 {
        let register = any_register(&mut random);
        let rows = all_pairs(&register, 64);
        let all = 0..rows.len();
        for (first, second) in all.clone().flat_map(|n| all.clone().map(move |m| (n, m))) {
            assert_eq!(rows[first][second], rows[second][first], "{first} {second}");
            assert!(rows[first][second] || first != second, "{first}");
            let linked = |third: &usize| rows[first][second] && rows[second][*third];
            for third in all.clone().filter(linked) {
                assert!(rows[first][third], "{first} {second} {third}");
                chains += u32::from(first != second && second != third && first != third);
            }
        }
    }
    assert!(chains >= 1_000, "{chains}");
}

/// The register with two sessions of the user, 0 and 1, one on each of the two,
/// if they admit a context.
fn with_sessions(register: &Register, user: u8, pair: [u8; 2]) -> Option<Register> {
    let Capability { hours, places, devices, .. } = *register.capability(pair[0]);
    let lowest = |mask: u32| (mask != 0).then(|| mask.trailing_zeros() as u8);
    let hour = lowest(hours)?;
    let (place, device) = (lowest(places.into())?, lowest(devices.into())?);
    let mut register = register.clone();
    for (session, number) in pair.into_iter().enumerate() {
        let on = Origin::Capability(number);
        register.sessions[session] = Session { active: true, user, on, hour, place, device };
    }
    assert!(well_formed(&register));
    Some(register)
}

/// What every check on the session is answered, in the context of its opening and
/// around it.
fn answers(register: &Register, session: u64) -> Vec<u64> {
    let mut copy = register.clone();
    let opening = opening(&register.sessions[session as usize]);
    let around = [
        opening,
        Context { hour: (opening.hour + 1) % 24, ..opening },
        Context { place: (opening.place + 1) % 16, ..opening },
        Context { device: (opening.device + 1) % 16, ..opening },
    ];
    let mut check = |permission, context| {
        apply_trusted(&mut copy, &inquiry(session, permission, context)).expect("an open session")
    };
    let mut row = |permission| around.map(|context| check(permission, context));
    (0..32).flat_map(&mut row).collect()
}

/// Every check on session 0 is answered as on session 1. How many are yes?
fn yes_on_both(register: &Register) -> u32 {
    let first = answers(register, 0);
    assert_eq!(first, answers(register, 1));
    first.iter().sum::<u64>() as u32
}

/// Now, and at each later tick of these: those around the ends of the life, the
/// last of all, and any.
fn assert_same_checks(random: &mut Random, register: &Register, number: u8) -> u32 {
    let Capability { first, last, .. } = *register.capability(number);
    let around = [first, last]
        .into_iter()
        .flat_map(|tick| [tick.saturating_sub(1), tick, tick.saturating_add(1)].map(u64::from));
    let any = (0..4).map(|_| random.bits() >> 32 >> random.below(32));
    let ticks: Vec<u64> = around.chain(any).chain([u64::from(u32::MAX)]).collect();
    let mut yes = yes_on_both(register);
    for tick in ticks {
        let mut later = register.clone();
        if apply(&mut later, &Request::Clock { tick }).is_ok() {
            yes += yes_on_both(&later);
        }
    }
    yes
}

/// Two that are the same, neither revoked, and one who holds both: such pairs of
/// the first so many capabilities.
fn kept_pairs(random: &mut Random, register: &Register, most: usize) -> Vec<([u8; 2], u8)> {
    let rows = all_pairs(register, most);
    let places = (0..rows.len()).flat_map(|second| (0..second).map(move |first| (first, second)));
    let mut pairs = Vec::new();
    for (first, second) in places.filter(|&(first, second)| rows[first][second]) {
        let pair = [first as u8, second as u8];
        let [one, other] = pair.map(|number| *register.capability(number));
        let user = random.bit(one.holders & other.holders);
        if let Some(user) = user.filter(|_| !one.revoked && !other.revoked) {
            pairs.push((pair, user as u8));
        }
    }
    pairs
}

/// Of two that are the same, neither revoked, whoever holds both is told the
/// same in two sessions, now and after any accepted clock (§6.17.5).
#[test]
fn checks_on_the_same_are_answered_alike() {
    let mut random = Random::new(82);
    let (mut pairs, mut yes) = (0, 0);
    for _ in 0..800 {
        let register = any_register(&mut random);
        for (pair, user) in kept_pairs(&mut random, &register, 100) {
            if let Some(opened) = with_sessions(&register, user, pair) {
                pairs += 1;
                yes += assert_same_checks(&mut random, &opened, pair[0]);
            }
        }
    }
    assert!(pairs >= 300 && yes >= 2_000, "{pairs}, {yes}");
}

/// With uses left of both, an opening of the one is answered as one of the
/// other (§6.17.5).
#[test]
fn openings_of_the_same_are_answered_alike() {
    let mut random = Random::new(84);
    let (mut accepted, mut refused) = (0, 0);
    for _ in 0..400 {
        let register = any_register(&mut random);
        for (pair, user) in kept_pairs(&mut random, &register, 100) {
            let left = |number: u8| {
                let capability = register.capability(number);
                capability.uses < capability.use_limit
            };
            for _ in (0..8).filter(|_| pair.iter().all(|&number| left(number))) {
                let [session, hour, place] = [66, 26, 17].map(|bound| random.below(bound));
                let answers = pair.map(|number| {
                    let line = format!("open {session} {user} pass {number} {hour} {place} 0");
                    perform(&mut register.clone(), &line)
                });
                assert_eq!(answers[0], answers[1], "{pair:?}");
                accepted += u32::from(answers[0].is_ok());
                refused += u32::from(answers[0].is_err());
            }
        }
    }
    assert!(accepted >= 100 && refused >= 100, "{accepted}, {refused}");
}

/// If the one is revoked and the other is not below it, the session on the other
/// is told what the session on the one was (§6.17.6).
#[test]
fn checks_stay_when_the_other_is_revoked() {
    let mut random = Random::new(85);
    let (mut apart, mut below, mut yes) = (0, 0, 0);
    for _ in 0..400 {
        let register = any_register(&mut random);
        for (pair, user) in kept_pairs(&mut random, &register, 100) {
            let Some(opened) = with_sessions(&register, user, pair) else { continue };
            let (session, gone) = random.pick(&[(0, pair[1]), (1, pair[0])]);
            let before = answers(&opened, 1 - session);
            let mut after = opened.clone();
            let creator = register.capability(gone).creator.into();
            let revoke = Request::Revoke { user: creator, capability: gone.into() };
            apply(&mut after, &revoke).expect("by its creator");
            if register.is_below(pair[session as usize], gone) {
                below += 1;
                assert!(answers(&after, session).iter().all(|&answer| answer == 0));
            } else {
                apart += 1;
                yes += before.iter().sum::<u64>();
                assert_eq!(answers(&after, session), before, "{pair:?}");
            }
        }
    }
    assert!(apart >= 200 && below >= 20 && yes >= 100, "{apart}, {below}, {yes}");
}

/// Out of range before not there, whatever the register.
#[test]
fn refusals_over_random_registers() {
    let mut random = Random::new(83);
    for _ in 0..50 {
        let register = any_register(&mut random);
        let count = register.count;
        for missing in [256, 257, 65_536, u32::MAX] {
            expect(&register, &format!("same {missing} {count}"), Err(2));
            expect(&register, &format!("same {count} {missing}"), Err(2));
        }
        if count < 256 {
            expect(&register, &format!("same {count} {count}"), Err(3));
        }
        if (1..256).contains(&count) {
            expect(&register, &format!("same {count} 0"), Err(3));
            expect(&register, &format!("same 0 {count}"), Err(3));
        }
    }
}

//! Checks in every context, on random registers: what is admitted below is
//! admitted above, when a check is a yes, and which of them a revoke changes.

mod common;

use common::contexts::{self, all_contexts, any_context, inquiry, within};
use reference::generate::{self, Profile};
use reference::random::Random;
use reference::register::has;
use reference::{
    apply, apply_trusted, Context, Named, Opening, Origin, Register, Request, Session,
};

/// A random register, or one which requests made.
fn any_register(random: &mut Random) -> Register {
    if random.chance(1, 2) {
        return generate::register(random);
    }
    let profile = random.pick(&[Profile::small, Profile::crowded, Profile::wide])();
    let mut register = Register::fresh();
    for request in generate::requests(random, &Register::fresh(), &profile, 500) {
        let _ = apply_trusted(&mut register, &request);
    }
    register
}

/// The masks of the role or capability.
fn masks(register: &Register, on: Origin) -> [u32; 3] {
    match on {
        Origin::Role(number) => {
            let role = register.role(number);
            [role.hours, role.places.into(), role.devices.into()]
        }
        Origin::Capability(number) => {
            let capability = register.capability(number);
            [capability.hours, capability.places.into(), capability.devices.into()]
        }
    }
}

/// The capability, all above it, and the role at the end.
fn lineage(register: &Register, number: u8) -> Vec<Origin> {
    let mut line = vec![Origin::Capability(number)];
    while let Some(Origin::Capability(lower)) = line.last() {
        line.push(register.capability(*lower).origin);
    }
    line
}

/// Whether the session is to get a yes (§7.2.4).
fn expected(register: &Register, session: &Session, permission: u8, context: Context) -> bool {
    let line = match session.on {
        Origin::Role(_) => vec![session.on],
        Origin::Capability(number) => lineage(register, number),
    };
    let grants = |on: &Origin| {
        let usable = match *on {
            Origin::Role(_) => true,
            Origin::Capability(number) => {
                let capability = register.capability(number);
                let life = capability.first..capability.last;
                !capability.revoked && life.contains(&register.clock)
            }
        };
        usable && within(masks(register, *on), context) && has(register.authority(*on), permission)
    };
    has(register.members(session.on), session.user) && line.iter().all(grants)
}

fn value(register: &mut Register, session: usize, permission: u8, context: Context) -> u64 {
    let request = inquiry(session as u64, permission.into(), context);
    apply_trusted(register, &request).expect("an open session")
}

/// The numbers of the open sessions.
fn open_sessions(register: &Register) -> Vec<usize> {
    (0..64).filter(|number| register.sessions[*number].active).collect()
}

#[test]
fn what_is_admitted_below_is_admitted_above() {
    let mut random = Random::new(80);
    let (mut admitted, mut refused) = (0, 0);
    for _ in 0..120 {
        let register = any_register(&mut random);
        for number in register.numbers() {
            for _ in 0..8 {
                let context = any_context(&mut random);
                let line = lineage(&register, number);
                let answers: Vec<bool> =
                    line.iter().map(|on| register.admits(*on, context)).collect();
                assert!(answers.is_sorted(), "{number} in {context:?}: {answers:?}");
                admitted += u32::from(answers[0]);
                refused += u32::from(!answers[0] && answers[answers.len() - 1]);
            }
        }
    }
    assert!(admitted >= 10_000 && refused >= 5_000, "{admitted}, {refused}");
}

/// In each of the 6,144 contexts a check is a yes exactly as the whole lineage
/// says, and exactly if it is one in the context of the opening and the target
/// admits the context (§6.13.4).
#[test]
fn checks_are_exact_in_every_context() {
    let mut random = Random::new(81);
    let (mut yes, mut no) = (0, 0);
    for _ in 0..60 {
        let mut register = any_register(&mut random);
        let sessions = open_sessions(&register);
        for _ in 0..sessions.len().min(6) {
            let number = random.pick(&sessions);
            let session = register.sessions[number];
            let carried = random.bit(register.authority(session.on).into()).unwrap_or(0);
            let there = value(&mut register, number, carried as u8, contexts::opening(&session));
            for context in all_contexts() {
                let answer = value(&mut register, number, carried as u8, context);
                let admitted = within(masks(&register, session.on), context);
                assert_eq!(answer == 1, there == 1 && admitted, "{session:?} in {context:?}");
                let expected = expected(&register, &session, carried as u8, context);
                assert_eq!(answer, u64::from(expected), "{session:?} in {context:?}");
                yes += answer;
                no += 1 - answer;
            }
        }
    }
    assert!(yes >= 30_000 && no >= 30_000, "{yes}, {no}");
}

/// Asked in the same context just before and just after, exactly the yes checks
/// on what is marked turn to no.
#[test]
fn a_revoke_changes_the_yes_checks_in_every_context() {
    let mut random = Random::new(82);
    let (mut changed, mut revokes) = (0, 0);
    while revokes < 60 {
        let mut before = any_register(&mut random);
        let sessions = open_sessions(&before);
        let Some(&number) = sessions.get(random.below(sessions.len() as u64) as usize) else {
            continue;
        };
        let session = before.sessions[number];
        let Origin::Capability(on) = session.on else { continue };
        let line = before.lineage(on).capabilities;
        let named = random.pick(&line);
        let user = u64::from(before.capability(named).creator);
        let mut after = before.clone();
        if apply(&mut after, &Request::Revoke { user, capability: named.into() }).is_err() {
            continue;
        }
        revokes += 1;
        let other = random.pick(&sessions);
        let carried = random.bit(before.authority(session.on).into()).unwrap_or(0) as u8;
        for context in all_contexts() {
            for asked in [number, other] {
                let old = value(&mut before, asked, carried, context);
                let new = value(&mut after, asked, carried, context);
                let on = before.sessions[asked].on;
                let marked = matches!(on, Origin::Capability(on) if after.capability(on).revoked);
                assert_eq!(old != new, marked && old == 1, "session {asked} in {context:?}");
                changed += u32::from(old != new);
            }
        }
    }
    assert!(changed >= 10_000, "{changed}");
}

/// A yes means that the user could open the same target there and then, but for
/// its uses; a session that could be opened gets a yes to what the target carries.
#[test]
fn a_check_is_a_yes_where_the_target_could_be_opened() {
    let mut random = Random::new(83);
    let (mut yes, mut no) = (0, 0);
    for _ in 0..300 {
        let mut register = any_register(&mut random);
        let Some(free) = (0..64).find(|number| !register.sessions[*number].active) else {
            continue;
        };
        for number in open_sessions(&register) {
            let Session { user, on, .. } = register.sessions[number];
            let Some(carried) = random.bit(register.authority(on).into()) else { continue };
            let context = any_context(&mut random);
            let answer = value(&mut register, number, carried as u8, context);
            let opened =
                apply_trusted(&mut register.clone(), &opening(free as u64, user, on, context));
            let could = matches!(opened, Ok(0) | Err(10));
            assert_eq!(answer == 1, could, "{opened:?} in {context:?}");
            yes += answer;
            no += 1 - answer;
        }
    }
    assert!(yes >= 300 && no >= 300, "{yes}, {no}");
}

/// The request to open the session there.
fn opening(session: u64, user: u8, on: Origin, context: Context) -> Request {
    let on = match on {
        Origin::Role(number) => Named::Role(number.into()),
        Origin::Capability(number) => Named::Capability(number.into()),
    };
    let [hour, place, device] = [context.hour, context.place, context.device].map(u64::from);
    Request::Open(Opening { session, user: user.into(), on, hour, place, device })
}

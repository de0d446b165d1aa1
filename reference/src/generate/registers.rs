//! Random registers that keep the rules. They are put together from the rules
//! and not by calls, so that they also show what only an image can show, such
//! as sessions of users who hold nothing.

use super::lives::borders;
use super::twins::{resembling, Terms};
use crate::random::Random;
use crate::register::{
    exceeds, Bounds, Capability, Context, Origin, Register, Role, Session, CAPABILITIES, DOMAINS,
};

/// A random register that keeps the rules.
pub fn register(random: &mut Random) -> Register {
    let mut register = Register::fresh();
    register.enrolled = match random.below(4) {
        0 => u64::MAX,
        1 => random.bits() & random.bits() & random.bits(),
        _ => random.bits(),
    };
    add_domains(random, &mut register);
    add_roles(random, &mut register);
    add_capabilities(random, &mut register);
    add_sessions(random, &mut register);
    register.clock = clock(random, &register);
    register
}

/// Any tick, or a border of a life: of any capability, or of one on which a
/// session is open.
fn clock(random: &mut Random, register: &Register) -> u32 {
    let used =
        |on: &u8| register.sessions.iter().any(|session| session.on == Origin::Capability(*on));
    let numbers: Vec<u8> = match random.below(4) {
        0 => register.numbers().collect(),
        1 | 2 => register.numbers().filter(used).collect(),
        _ => Vec::new(),
    };
    if numbers.is_empty() {
        return tick(random);
    }
    let number = random.pick(&numbers);
    random.pick(&borders(register.capability(number)))
}

/// A tick of any size, small ones as often as large ones.
fn tick(random: &mut Random) -> u32 {
    (random.bits() >> 32) as u32 >> random.below(32)
}

fn add_domains(random: &mut Random, register: &mut Register) {
    let domains = random.between(1, DOMAINS as u64);
    for user in 0..64 {
        if register.has_user(user) {
            register.domains[usize::from(user)] = random.below(domains) as u8;
        }
    }
}

fn add_roles(random: &mut Random, register: &mut Register) {
    let founded = random.subset(0xffff_ffff);
    for number in 0..32 {
        if founded >> number & 1 == 1 {
            register.roles[number] = role(random, register);
        }
    }
}

fn role(random: &mut Random, register: &Register) -> Role {
    let domain = random.below(DOMAINS as u64) as u8;
    let fits = |user: &u64| register.domains[*user as usize] == domain;
    let users_of_domain = (0..64).filter(fits).fold(0, |mask, user| mask | 1 << user);
    Role {
        founded: true,
        domain,
        permissions: random.subset(0xffff_ffff) as u32,
        hours: random.subset(0xff_ffff) as u32,
        places: random.subset(0xffff) as u16,
        devices: random.subset(0xffff) as u16,
        appointed: random.subset(users_of_domain & register.enrolled),
    }
}

/// The founded roles.
fn roles(register: &Register) -> Vec<u8> {
    (0..32).filter(|role| register.has_role(*role)).collect()
}

fn add_capabilities(random: &mut Random, register: &mut Register) {
    if register.enrolled == 0 || roles(register).is_empty() {
        return;
    }
    let count = match random.below(4) {
        0 => CAPABILITIES as u64,
        1 => random.below(8),
        _ => random.between(0, CAPABILITIES as u64),
    };
    let depth = random.below(8);
    for _ in 0..count {
        let origin = origin(random, register, depth);
        let new = capability(random, register, origin);
        if let Origin::Capability(upper) = origin {
            register.capabilities[usize::from(upper)].creations += 1;
        }
        register.capabilities[usize::from(register.count)] = new;
        register.count += 1;
    }
}

/// A role, or a capability with a creation left; in `depth` of 8 cases a
/// capability is tried first, a late one.
fn origin(random: &mut Random, register: &Register, depth: u64) -> Origin {
    let free = |number: &u8| {
        let capability = register.capability(*number);
        capability.creations < capability.creation_limit
    };
    let fitting: Vec<u8> = register.numbers().filter(free).collect();
    if !fitting.is_empty() && random.chance(depth, 8) {
        let pair = [random.pick(&fitting), random.pick(&fitting)];
        return Origin::Capability(pair[0].max(pair[1]));
    }
    Origin::Role(random.pick(&roles(register)))
}

/// A capability within the bounds of its origin, often nearly the same as one
/// that is there.
fn capability(random: &mut Random, register: &Register, origin: Origin) -> Capability {
    let bounds = register.bounds(origin);
    let twin = match random.chance(1, 2) {
        true => resembling(random, register, origin),
        false => None,
    };
    let terms = twin.map_or_else(|| terms(random, &bounds), |(_, terms)| terms);
    let [first, last, use_limit, creation_limit, hop_limit, hours, places, devices] = terms;
    let holders = holders(random, register.enrolled, hop_limit as u16);
    let mut new = Capability {
        origin,
        creator: random.bit(register.enrolled).unwrap_or(0) as u8,
        permissions: random.subset(bounds.authority.into()) as u32,
        lent: random.subset(bounds.roles.into()) as u32,
        holders,
        first: first as u32,
        last: last as u32,
        use_limit: use_limit as u16,
        uses: limit(random, u16::MAX),
        creation_limit: creation_limit as u16,
        creations: 0,
        hop_limit: hop_limit as u16,
        hops: holders.count_ones() as u16,
        hours: hours as u32,
        places: places as u16,
        devices: devices as u16,
        revoked: bounds.revoked || random.chance(1, 16),
    };
    if let Some((model, _)) = twin.filter(|_| random.chance(3, 4)) {
        match_authority(random, register, &mut new, model);
    }
    new
}

/// Life, limits and masks within the bounds.
fn terms(random: &mut Random, bounds: &Bounds) -> Terms {
    let (first, last) = life(random, bounds);
    [
        first.into(),
        last.into(),
        limit(random, bounds.use_limit).into(),
        limit(random, bounds.creation_limit).into(),
        limit(random, bounds.hop_limit).into(),
        wide_subset(random, bounds.hours),
        wide_subset(random, bounds.places.into()),
        wide_subset(random, bounds.devices.into()),
    ]
}

/// Gives the new capability the authority of the model, as far as its origin
/// has it, or sometimes all but the highest bit, and keeps the roles lent to it
/// if they add nothing else.
fn match_authority(random: &mut Random, register: &Register, new: &mut Capability, model: u8) {
    let authority = register.authority(Origin::Capability(model));
    let lent = register.joined(&Capability { permissions: 0, ..*new });
    new.permissions = authority & register.bounds(new.origin).authority;
    if random.chance(1, 4) {
        new.permissions &= !new.permissions.checked_ilog2().map_or(0, |bit| 1 << bit);
    }
    if exceeds(lent, authority) {
        new.lent = 0;
    }
}

/// Mostly the whole mask, so that contexts are admitted deep in the tree.
fn wide_subset(random: &mut Random, mask: u32) -> u64 {
    match random.chance(3, 4) {
        true => u64::from(mask),
        false => random.subset(mask.into()),
    }
}

/// At most the limit: itself, small or anything between.
fn limit(random: &mut Random, upper: u16) -> u16 {
    let upper = u64::from(upper);
    match random.below(4) {
        0 => random.below(upper.min(4) + 1) as u16,
        1 => random.between(0, upper) as u16,
        _ => upper as u16,
    }
}

/// Some users, not more than the limit.
fn holders(random: &mut Random, enrolled: u64, limit: u16) -> u64 {
    let mut holders = random.subset(enrolled);
    while holders.count_ones() > u32::from(limit) {
        holders &= holders - 1;
    }
    holders
}

/// A life within the bounds, seldom one without a tick.
fn life(random: &mut Random, bounds: &Bounds) -> (u32, u32) {
    let (first, last) = (u64::from(bounds.first), u64::from(bounds.last));
    let start = match random.below(3) {
        0 => (first + u64::from(tick(random))).min(last),
        _ => first,
    };
    let end = match random.below(8) {
        0 => start,
        1..=3 => random.between(start, last),
        _ => last,
    };
    (start as u32, end as u32)
}

fn add_sessions(random: &mut Random, register: &mut Register) {
    let open = random.subset(u64::MAX);
    for number in 0..64 {
        let wanted = open >> number & 1 == 1;
        if let Some(new) = session(random, register).filter(|_| wanted) {
            register.sessions[number] = new;
        }
    }
}

/// A session of any user, often a member, on any role or capability, if that
/// admits a context.
fn session(random: &mut Random, register: &Register) -> Option<Session> {
    let anybody = random.bit(register.enrolled)?;
    let roles = roles(register);
    let on = match register.count > 0 && random.chance(3, 4) {
        true => Origin::Capability(random.below(register.count.into()) as u8),
        false if roles.is_empty() => return None,
        false => Origin::Role(random.pick(&roles)),
    };
    let member = random.bit(register.members(on)).filter(|_| random.chance(1, 2));
    let user = member.unwrap_or(anybody) as u8;
    let Context { hour, place, device } = admitted(random, &register.bounds(on))?;
    Some(Session { active: true, user, on, hour, place, device })
}

/// A context that is admitted, if there is one.
fn admitted(random: &mut Random, bounds: &Bounds) -> Option<Context> {
    Some(Context {
        hour: random.bit(bounds.hours.into())? as u8,
        place: random.bit(bounds.places.into())? as u8,
        device: random.bit(bounds.devices.into())? as u8,
    })
}

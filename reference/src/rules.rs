//! The invariant: the rules (§4), as a test of any register.
//!
//! The test never panics, whatever the register holds: the parts below are
//! asked in an order in which each relies only on those before it.

use crate::register::{
    exceeds, Bounds, Capability, Context, Origin, Register, Role, Session, CAPABILITIES, DEVICES,
    DOMAINS, HOURS, PLACES,
};

/// Whether the register keeps all rules (§4.1.1).
pub fn well_formed(register: &Register) -> bool {
    users_kept(register)
        && roles_kept(register)
        && count_kept(register)
        && capabilities_kept(register)
        && register.sessions.iter().all(|session| session_kept(register, session))
}

/// Of a user the register has the domain: in range if the user is there
/// (§4.1.2), else 0 (§4.1.3).
fn users_kept(register: &Register) -> bool {
    let mut users = register.domains.iter().enumerate();
    users.all(|(user, &domain)| match register.has_user(user as u8) {
        true => usize::from(domain) < DOMAINS,
        false => domain == 0,
    })
}

/// A role that is not founded is 0 throughout (§4.1.3).
fn roles_kept(register: &Register) -> bool {
    register.roles.iter().all(|role| match role.founded {
        true => founded_role_kept(register, role),
        false => *role == Role::default(),
    })
}

/// Ranges of a founded role (§4.1.2), and its appointed users (§4.2.1).
fn founded_role_kept(register: &Register, role: &Role) -> bool {
    usize::from(role.domain) < DOMAINS
        && hours_in_range(role.hours)
        && !exceeds(role.appointed, register.enrolled)
        && !exceeds(role.appointed, users_of_domain(register, role.domain))
}

/// The mask of the users with this domain; one not enrolled has domain 0.
fn users_of_domain(register: &Register, domain: u8) -> u64 {
    let mut mask = 0;
    for (user, &kept) in register.domains.iter().enumerate() {
        mask |= u64::from(kept == domain) << user;
    }
    mask
}

/// Masks of hours have 24 bits (§1.2.2); the other masks fill their numbers.
fn hours_in_range(hours: u32) -> bool {
    hours < 1 << HOURS
}

/// At most 256 capabilities (§4.1.2), and 0 from the count on (§4.1.3).
fn count_kept(register: &Register) -> bool {
    let count = usize::from(register.count);
    count <= CAPABILITIES
        && register.capabilities[count..].iter().all(|rest| *rest == Capability::default())
}

/// Names first, so that the bounds of every origin can be read after it.
fn capabilities_kept(register: &Register) -> bool {
    let children = children(register);
    register.numbers().all(|number| names_kept(register, number))
        && register.numbers().all(|number| {
            let capability = register.capability(number);
            let bounds = register.bounds(capability.origin);
            hours_in_range(capability.hours)
                && content_within(capability, &bounds)
                && limits_within(capability, &bounds)
                && counts_kept(capability, children[usize::from(number)])
        })
}

/// For every number, of how many capabilities it is the origin.
fn children(register: &Register) -> [u16; CAPABILITIES] {
    let mut children = [0; CAPABILITIES];
    for number in register.numbers() {
        if let Origin::Capability(upper) = register.capability(number).origin {
            children[usize::from(upper)] += 1;
        }
    }
    children
}

/// What a capability names is there (§4.3.1), and its origin comes before it
/// (§4.3.2).
fn names_kept(register: &Register, number: u8) -> bool {
    let capability = register.capability(number);
    let origin_kept = match capability.origin {
        Origin::Role(role) => register.has_role(role),
        Origin::Capability(upper) => upper < number,
    };
    origin_kept
        && register.has_user(capability.creator)
        && !exceeds(capability.holders, register.enrolled)
        && !exceeds(capability.lent, founded_roles(register))
}

/// The mask of the founded roles.
fn founded_roles(register: &Register) -> u32 {
    let mut mask = 0;
    for (number, role) in register.roles.iter().enumerate() {
        mask |= u32::from(role.founded) << number;
    }
    mask
}

/// Permissions, roles, masks and mark of §3.4.2, of which §4.3.3 speaks.
fn content_within(capability: &Capability, bounds: &Bounds) -> bool {
    !exceeds(capability.permissions, bounds.authority)
        && !exceeds(capability.lent, bounds.roles)
        && !exceeds(capability.hours, bounds.hours)
        && !exceeds(capability.places, bounds.places)
        && !exceeds(capability.devices, bounds.devices)
        && (capability.revoked || !bounds.revoked)
}

/// Life and limits of §3.4.2, and the order of the two ticks, of which equal
/// ones are in order too (§4.3.4). The clock is not asked.
fn limits_within(capability: &Capability, bounds: &Bounds) -> bool {
    bounds.first <= capability.first
        && capability.first <= capability.last
        && capability.last <= bounds.last
        && capability.use_limit <= bounds.use_limit
        && capability.creation_limit <= bounds.creation_limit
        && capability.hop_limit <= bounds.hop_limit
}

/// Hops (§4.3.5) and creations (§4.3.6). Uses are not compared with their
/// limit (§4.3.7).
fn counts_kept(capability: &Capability, children: u16) -> bool {
    u32::from(capability.hops) == capability.holders.count_ones()
        && capability.creations == children
        && capability.hops <= capability.hop_limit
        && capability.creations <= capability.creation_limit
}

/// A session that is not open is 0 throughout (§4.1.3); of an open one the
/// user and target are there, and the target admits the context (§4.4.1).
fn session_kept(register: &Register, session: &Session) -> bool {
    if !session.active {
        return *session == Session::default();
    }
    let Session { hour, place, device, .. } = *session;
    register.has_user(session.user)
        && register.has_origin(session.on)
        && usize::from(hour) < HOURS
        && usize::from(place) < PLACES
        && usize::from(device) < DEVICES
        && register.admits(session.on, Context { hour, place, device })
}

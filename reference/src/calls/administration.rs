//! Users, roles and the clock: enrol, found, grant, withdraw, appoint,
//! dismiss, clock (§6.1 to §6.7).

use super::arguments::{self, need_origin, need_user};
use crate::refusal::{refuse_if, Answer, CLOCK_BACKWARDS, DOMAINS_DIFFER, NO_CHANGE};
use crate::register::{has, Origin, Register, Role};

/// Enrols a user in a domain (§6.1.1).
pub fn enrol(register: &mut Register, user: u64, domain: u64) -> Answer {
    let user = arguments::user(user)?;
    let domain = arguments::domain(domain)?;
    refuse_if(register.has_user(user), NO_CHANGE)?;
    register.enrolled |= 1 << user;
    register.domains[usize::from(user)] = domain;
    Ok(0)
}

/// Founds a role with its masks of hours, places and devices (§6.2.1).
pub fn found(register: &mut Register, role: u64, domain: u64, masks: [u64; 3]) -> Answer {
    let role = arguments::role(role)?;
    let new = Role {
        founded: true,
        domain: arguments::domain(domain)?,
        permissions: 0,
        hours: arguments::hours(masks[0])?,
        places: arguments::places(masks[1])?,
        devices: arguments::devices(masks[2])?,
        appointed: 0,
    };
    refuse_if(register.has_role(role), NO_CHANGE)?;
    register.roles[usize::from(role)] = new;
    Ok(0)
}

/// Gives a permission to a role (§6.3.1).
pub fn grant(register: &mut Register, role: u64, permission: u64) -> Answer {
    let role = arguments::role(role)?;
    let permission = arguments::permission(permission)?;
    need_origin(register, Origin::Role(role))?;
    refuse_if(has(register.role(role).permissions, permission), NO_CHANGE)?;
    register.roles[usize::from(role)].permissions |= 1 << permission;
    Ok(0)
}

/// Takes a permission from a role (§6.4.1), then from what goes back to it, in
/// one rising sweep (§6.4.2).
pub fn withdraw(register: &mut Register, role: u64, permission: u64) -> Answer {
    let role = arguments::role(role)?;
    let permission = arguments::permission(permission)?;
    need_origin(register, Origin::Role(role))?;
    refuse_if(!has(register.role(role).permissions, permission), NO_CHANGE)?;
    register.roles[usize::from(role)].permissions &= !(1 << permission);
    for number in register.numbers() {
        let authority = register.authority(register.capability(number).origin);
        register.capabilities[usize::from(number)].permissions &= authority;
    }
    Ok(0)
}

/// Appoints a user to a role of the same domain (§6.5.1).
pub fn appoint(register: &mut Register, user: u64, role: u64) -> Answer {
    let user = arguments::user(user)?;
    let role = arguments::role(role)?;
    need_user(register, user)?;
    need_origin(register, Origin::Role(role))?;
    let domain = register.domains[usize::from(user)];
    refuse_if(domain != register.role(role).domain, DOMAINS_DIFFER)?;
    refuse_if(has(register.role(role).appointed, user), NO_CHANGE)?;
    register.roles[usize::from(role)].appointed |= 1 << user;
    Ok(0)
}

/// Ends an appointment, and nothing else (§6.6.1).
pub fn dismiss(register: &mut Register, user: u64, role: u64) -> Answer {
    let user = arguments::user(user)?;
    let role = arguments::role(role)?;
    need_user(register, user)?;
    need_origin(register, Origin::Role(role))?;
    refuse_if(!has(register.role(role).appointed, user), NO_CHANGE)?;
    register.roles[usize::from(role)].appointed &= !(1 << user);
    Ok(0)
}

/// Moves the clock on, or leaves it where it is (§6.7.1).
pub fn clock(register: &mut Register, tick: u64) -> Answer {
    let tick = arguments::tick(tick)?;
    refuse_if(tick < register.clock, CLOCK_BACKWARDS)?;
    register.clock = tick;
    Ok(0)
}

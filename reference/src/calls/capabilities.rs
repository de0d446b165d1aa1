//! Making capabilities and giving by them: create, allow, lend, hand (§6.8 to
//! §6.11).

use super::arguments::{self, need_origin, need_usable, need_user};
use crate::refusal::{
    refuse_if, Answer, AT_LIMIT, EXCEEDS_ORIGIN, FULL, NOT_ENTITLED, NO_CHANGE, OUT_OF_RANGE,
    REVOKED,
};
use crate::register::{exceeds, has, Bounds, Capability, Origin, Register, CAPABILITIES, CREATE};
use crate::request::Creation;

/// Derives a capability: refusals by §6.8.1, what is made by §6.8.2.
pub fn create(register: &mut Register, asked: &Creation) -> Answer {
    let user = arguments::user(asked.user)?;
    let origin = arguments::origin(asked.origin)?;
    let context = arguments::context(asked.hour, asked.place, asked.device)?;
    let new = proposed(asked, user, origin)?;
    refuse_if(new.first > new.last, OUT_OF_RANGE)?;
    need_user(register, user)?;
    need_origin(register, origin)?;
    refuse_if(!has(register.members(origin), user), NOT_ENTITLED)?;
    refuse_if(!has(register.authority(origin), CREATE), NOT_ENTITLED)?;
    need_usable(register, origin, context)?;
    refuse_if(creations_at_limit(register, origin), AT_LIMIT)?;
    refuse_if(exceeds_bounds(&new, &register.bounds(origin)), EXCEEDS_ORIGIN)?;
    refuse_if(usize::from(register.count) >= CAPABILITIES, FULL)?;
    add(register, new);
    Ok(u64::from(register.count) - 1)
}

/// The new capability, with nothing given to it yet (§6.8.2).
fn proposed(asked: &Creation, creator: u8, origin: Origin) -> Result<Capability, u8> {
    Ok(Capability {
        origin,
        creator,
        first: arguments::tick(asked.first)?,
        last: arguments::tick(asked.last)?,
        use_limit: arguments::limit(asked.use_limit)?,
        creation_limit: arguments::limit(asked.creation_limit)?,
        hop_limit: arguments::limit(asked.hop_limit)?,
        hours: arguments::hours(asked.hours)?,
        places: arguments::places(asked.places)?,
        devices: arguments::devices(asked.devices)?,
        ..Capability::default()
    })
}

/// Whether the origin has no creation left; a role counts none (§5.2.5).
fn creations_at_limit(register: &Register, origin: Origin) -> bool {
    match origin {
        Origin::Role(_) => false,
        Origin::Capability(number) => {
            let upper = register.capability(number);
            upper.creations >= upper.creation_limit
        }
    }
}

/// Whether life, limits or masks are not within those of the origin (§3.4.1).
fn exceeds_bounds(new: &Capability, bounds: &Bounds) -> bool {
    new.first < bounds.first
        || new.last > bounds.last
        || new.use_limit > bounds.use_limit
        || new.creation_limit > bounds.creation_limit
        || new.hop_limit > bounds.hop_limit
        || exceeds(new.hours, bounds.hours)
        || exceeds(new.places, bounds.places)
        || exceeds(new.devices, bounds.devices)
}

/// Puts the capability at the count, and counts it for its origin (§6.8.2).
fn add(register: &mut Register, new: Capability) {
    if let Origin::Capability(upper) = new.origin {
        register.capabilities[usize::from(upper)].creations += 1;
    }
    register.capabilities[usize::from(register.count)] = new;
    register.count += 1;
}

/// What allow, lend and hand ask alike, after 2: 3, then 6 and 7.
fn need_creator(register: &Register, user: u8, number: u8) -> Result<(), u8> {
    need_user(register, user)?;
    need_origin(register, Origin::Capability(number))?;
    refuse_if(register.capability(number).creator != user, NOT_ENTITLED)?;
    refuse_if(register.capability(number).revoked, REVOKED)
}

/// Adds own permissions to a capability (§6.9.1).
pub fn allow(register: &mut Register, user: u64, capability: u64, permissions: u64) -> Answer {
    let user = arguments::user(user)?;
    let number = arguments::capability(capability)?;
    let permissions = arguments::mask(permissions)?;
    need_creator(register, user, number)?;
    let capability = register.capability(number);
    let bounds = register.bounds(capability.origin);
    refuse_if(exceeds(permissions, bounds.authority), EXCEEDS_ORIGIN)?;
    refuse_if(!exceeds(permissions, capability.permissions), NO_CHANGE)?;
    register.capabilities[usize::from(number)].permissions |= permissions;
    Ok(u64::from(register.authority(Origin::Capability(number))))
}

/// Adds lent roles to a capability (§6.10.1).
pub fn lend(register: &mut Register, user: u64, capability: u64, roles: u64) -> Answer {
    let user = arguments::user(user)?;
    let number = arguments::capability(capability)?;
    let roles = arguments::mask(roles)?;
    need_creator(register, user, number)?;
    let capability = register.capability(number);
    let bounds = register.bounds(capability.origin);
    refuse_if(exceeds(roles, bounds.roles), EXCEEDS_ORIGIN)?;
    refuse_if(!exceeds(roles, capability.lent), NO_CHANGE)?;
    register.capabilities[usize::from(number)].lent |= roles;
    Ok(u64::from(register.authority(Origin::Capability(number))))
}

/// Makes a user a holder of a capability (§6.11.1).
pub fn hand(register: &mut Register, user: u64, receiver: u64, capability: u64) -> Answer {
    let user = arguments::user(user)?;
    let receiver = arguments::user(receiver)?;
    let number = arguments::capability(capability)?;
    need_user(register, receiver)?;
    need_creator(register, user, number)?;
    let capability = &mut register.capabilities[usize::from(number)];
    refuse_if(has(capability.holders, receiver), NO_CHANGE)?;
    refuse_if(capability.hops >= capability.hop_limit, AT_LIMIT)?;
    capability.holders |= 1 << receiver;
    capability.hops += 1;
    Ok(u64::from(capability.hops))
}

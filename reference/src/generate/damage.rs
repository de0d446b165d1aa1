//! Random damage to images and registers. Damage may change nothing, and what
//! it leaves may still keep the rules: that is for the tests to judge.

mod layout;
mod records;

use super::BOUNDARIES;
use crate::random::Random;
use crate::register::{Capability, Origin, Register, Role, Session};

/// Changes a few bytes of an image, its length, its records or its maps.
pub fn damage_image(random: &mut Random, image: &mut Vec<u8>) {
    for _ in 0..random.between(1, 3) {
        damage_once(random, image);
    }
}

fn damage_once(random: &mut Random, image: &mut Vec<u8>) {
    let length = image.len() as u64;
    let at = random.below(length) as usize;
    match random.below(16) {
        0 => image.truncate(at),
        1 => extend(random, image),
        2 => image.insert(at, random.bits() as u8),
        3 if length > 0 => drop(image.remove(at)),
        4 if length > 0 => image[at] = random.pick(&BOUNDARIES) as u8,
        5 if length > 0 => image[at] = random.bits() as u8,
        6 if length > 0 => image.swap(at, random.below(length) as usize),
        7 if length > 0 => image[at] = image[at].wrapping_add(1),
        8..=12 => records::damage_records(random, image),
        _ if length > 0 => image[at] ^= 1 << random.below(8),
        _ => (),
    }
}

/// Bytes after the end: one, zeros, or so many that two bytes cannot count
/// them.
fn extend(random: &mut Random, image: &mut Vec<u8>) {
    match random.below(16) {
        0 => image.resize(image.len() + 65_536, 0),
        1..=4 => image.resize(image.len() + random.between(1, 26) as usize, 0),
        _ => image.push(random.bits() as u8),
    }
}

/// Changes one field of the register to another number, or moves a capability
/// to another origin.
pub fn damage_register(random: &mut Random, register: &mut Register) {
    match random.below(16) {
        0 => register.clock = number(random, register.clock.into()) as u32,
        1 => register.enrolled ^= 1 << random.below(64),
        2 => {
            let domain = &mut register.domains[random.below(64) as usize];
            *domain = number(random, (*domain).into()) as u8;
        }
        3 => register.count = number(random, register.count.into()) as u16,
        4..=6 => {
            let at = random.below(32) as usize;
            damage_role(random, &mut register.roles[at]);
        }
        7..=9 => {
            let at = random.below(64) as usize;
            damage_session(random, &mut register.sessions[at]);
        }
        10 => move_capability(random, register),
        _ => {
            let last = u64::from(register.count).min(255);
            let at = random.between(0, last) as usize;
            damage_capability(random, &mut register.capabilities[at]);
        }
    }
}

/// A capability gets another capability as its origin, and the counts of
/// creations go with it.
fn move_capability(random: &mut Random, register: &mut Register) {
    let count = u64::from(register.count).min(256);
    let moved = random.below(count) as usize;
    let upper = random.below(count) as u8;
    if let Origin::Capability(old) = register.capabilities[moved].origin {
        let creations = &mut register.capabilities[usize::from(old)].creations;
        *creations = creations.wrapping_sub(1);
    }
    register.capabilities[moved].origin = Origin::Capability(upper);
    let creations = &mut register.capabilities[usize::from(upper)].creations;
    *creations = creations.wrapping_add(1);
}

/// Another number: one more or less, one bit changed, an edge, or any.
fn number(random: &mut Random, old: u64) -> u64 {
    match random.below(6) {
        0 => old.wrapping_add(1),
        1 => old.wrapping_sub(1),
        2 | 3 => old ^ 1 << random.below(32),
        4 => random.pick(&BOUNDARIES),
        _ => random.bits(),
    }
}

fn origin(random: &mut Random, old: Origin) -> Origin {
    let number = match old {
        Origin::Role(number) | Origin::Capability(number) => number,
    };
    let other = match random.below(3) {
        0 => number,
        1 => random.below(32) as u8,
        _ => random.bits() as u8,
    };
    match random.chance(1, 2) {
        true => Origin::Role(other),
        false => Origin::Capability(other),
    }
}

fn damage_role(random: &mut Random, role: &mut Role) {
    match random.below(7) {
        0 => role.founded = !role.founded,
        1 => role.domain = number(random, role.domain.into()) as u8,
        2 => role.permissions = number(random, role.permissions.into()) as u32,
        3 => role.hours = number(random, role.hours.into()) as u32,
        4 => role.places = number(random, role.places.into()) as u16,
        5 => role.devices = number(random, role.devices.into()) as u16,
        _ => role.appointed ^= 1 << random.below(64),
    }
}

fn damage_session(random: &mut Random, session: &mut Session) {
    match random.below(6) {
        0 => session.active = !session.active,
        1 => session.user = number(random, session.user.into()) as u8,
        2 => session.on = origin(random, session.on),
        3 => session.hour = number(random, session.hour.into()) as u8,
        4 => session.place = number(random, session.place.into()) as u8,
        _ => session.device = number(random, session.device.into()) as u8,
    }
}

fn damage_capability(random: &mut Random, capability: &mut Capability) {
    match random.below(9) {
        0 => capability.origin = origin(random, capability.origin),
        1 => capability.creator = number(random, capability.creator.into()) as u8,
        2 => capability.permissions = number(random, capability.permissions.into()) as u32,
        3 => capability.lent = number(random, capability.lent.into()) as u32,
        4 => damage_holders(random, capability),
        5 => damage_life(random, capability),
        6 => damage_limits(random, capability),
        7 => damage_masks(random, capability),
        _ => capability.revoked = !capability.revoked,
    }
}

/// The hop count goes with the holders in half of the cases.
fn damage_holders(random: &mut Random, capability: &mut Capability) {
    capability.holders ^= 1 << random.below(64);
    if random.chance(1, 2) {
        capability.hops = capability.holders.count_ones() as u16;
    }
}

fn damage_life(random: &mut Random, capability: &mut Capability) {
    match random.below(2) {
        0 => capability.first = number(random, capability.first.into()) as u32,
        _ => capability.last = number(random, capability.last.into()) as u32,
    }
}

fn damage_limits(random: &mut Random, capability: &mut Capability) {
    let field = match random.below(6) {
        0 => &mut capability.use_limit,
        1 => &mut capability.uses,
        2 => &mut capability.creation_limit,
        3 => &mut capability.creations,
        4 => &mut capability.hop_limit,
        _ => &mut capability.hops,
    };
    *field = number(random, (*field).into()) as u16;
}

fn damage_masks(random: &mut Random, capability: &mut Capability) {
    match random.below(3) {
        0 => capability.hours = number(random, capability.hours.into()) as u32,
        1 => capability.places = number(random, capability.places.into()) as u16,
        _ => capability.devices = number(random, capability.devices.into()) as u16,
    }
}

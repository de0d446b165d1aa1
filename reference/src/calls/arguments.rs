//! Reading of arguments: each in its range, else 2 (§5.2.3), and what it names
//! there, else 3 (§5.2.4).

use crate::refusal::{refuse_if, NOT_ADMITTED, NOT_THERE, OUT_OF_LIFE, OUT_OF_RANGE, REVOKED};
use crate::register::{
    Context, Origin, Register, CAPABILITIES, DEVICES, DOMAINS, HOURS, PERMISSIONS, PLACES, ROLES,
    SESSIONS, USERS,
};
use crate::request::Named;

/// The number, which must be below `end`.
fn below<T: TryFrom<u64>>(number: u64, end: u64) -> Result<T, u8> {
    refuse_if(number >= end, OUT_OF_RANGE)?;
    T::try_from(number).map_err(|_| OUT_OF_RANGE)
}

/// The number of a user; here and below the ranges are those of §1.2.1.
pub fn user(number: u64) -> Result<u8, u8> {
    below(number, USERS as u64)
}

/// The number of a domain.
pub fn domain(number: u64) -> Result<u8, u8> {
    below(number, DOMAINS as u64)
}

/// The number of a role.
pub fn role(number: u64) -> Result<u8, u8> {
    below(number, ROLES as u64)
}

/// The number of a permission.
pub fn permission(number: u64) -> Result<u8, u8> {
    below(number, PERMISSIONS as u64)
}

/// The number of a capability.
pub fn capability(number: u64) -> Result<u8, u8> {
    below(number, CAPABILITIES as u64)
}

/// The number of a session.
pub fn session(number: u64) -> Result<u8, u8> {
    below(number, SESSIONS as u64)
}

/// A tick.
pub fn tick(number: u64) -> Result<u32, u8> {
    below(number, 1 << u32::BITS)
}

/// A mask of permissions or of roles; the widths of masks are in §1.2.2.
pub fn mask(number: u64) -> Result<u32, u8> {
    below(number, 1 << u32::BITS)
}

/// A mask of hours.
pub fn hours(number: u64) -> Result<u32, u8> {
    below(number, 1 << HOURS)
}

/// A mask of places.
pub fn places(number: u64) -> Result<u16, u8> {
    below(number, 1 << PLACES)
}

/// A mask of devices.
pub fn devices(number: u64) -> Result<u16, u8> {
    below(number, 1 << DEVICES)
}

/// A limit of uses, creations or hops.
pub fn limit(number: u64) -> Result<u16, u8> {
    below(number, 1 << u16::BITS)
}

/// A context.
pub fn context(hour: u64, place: u64, device: u64) -> Result<Context, u8> {
    Ok(Context {
        hour: below(hour, HOURS as u64)?,
        place: below(place, PLACES as u64)?,
        device: below(device, DEVICES as u64)?,
    })
}

/// A target: its number has the range of its kind (§5.2.3).
pub fn origin(named: Named) -> Result<Origin, u8> {
    match named {
        Named::Role(number) => role(number).map(Origin::Role),
        Named::Capability(number) => capability(number).map(Origin::Capability),
    }
}

/// Refuses a user that is not enrolled.
pub fn need_user(register: &Register, user: u8) -> Result<(), u8> {
    refuse_if(!register.has_user(user), NOT_THERE)
}

/// Refuses a role or capability that is not there.
pub fn need_origin(register: &Register, origin: Origin) -> Result<(), u8> {
    refuse_if(!register.has_origin(origin), NOT_THERE)
}

/// Refuses a session that is not open.
pub fn need_session(register: &Register, session: u8) -> Result<(), u8> {
    refuse_if(!register.sessions[usize::from(session)].active, NOT_THERE)
}

/// What create (§6.8.1) and open (§6.12.1) ask alike of their target, after 6:
/// 7, 8 and 9.
pub fn need_usable(register: &Register, origin: Origin, context: Context) -> Result<(), u8> {
    refuse_if(register.bounds(origin).revoked, REVOKED)?;
    refuse_if(!register.in_life(origin), OUT_OF_LIFE)?;
    refuse_if(!register.admits(origin, context), NOT_ADMITTED)
}

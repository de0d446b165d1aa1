//! The image (§8): encode and save, decode and load.
//!
//! Numbers are big-endian (§8.1.1) and maps little-endian (§8.1.2). Maps are
//! those of the enrolled users, the roles there, the appointed users, the
//! holders and the open sessions; all other masks are written as numbers.

mod reader;

use crate::refusal::{refuse_if, Answer, BAD_IMAGE, BUFFER_TOO_SHORT, NOT_WELL_FORMED};
use crate::register::{Capability, Origin, Register, Role, Session, CAPABILITIES};
use crate::rules::well_formed;

/// The bytes that a fresh register saves (§8.3.1); no register saves fewer.
pub const SHORTEST: usize = 26;
/// No image is longer (§8.3.1).
pub const LONGEST: usize = 13_402;
/// The bit of the field map that stands for no field (§8.2.5).
const REVOKED_MARK: u16 = 1 << 14;

/// Writes the image at the start of the buffer, and gives its length (§8.4.1).
pub fn save(register: &Register, buffer: &mut [u8]) -> Result<usize, u8> {
    refuse_if(!well_formed(register), NOT_WELL_FORMED)?;
    let image = encode(register);
    refuse_if(buffer.len() < image.len(), BUFFER_TOO_SHORT)?;
    buffer[..image.len()].copy_from_slice(&image);
    Ok(image.len())
}

/// The register of an image; 14 to all other bytes (§8.5.1). An image without
/// bytes is that of a new client (§8.5.3): it shows the fresh register, and
/// alone among the accepted ones it is not what its register saves (§8.6.2).
pub fn load(image: &[u8]) -> Result<Register, u8> {
    if image.is_empty() {
        return Ok(Register::fresh());
    }
    let register = reader::decode(image).ok_or(BAD_IMAGE)?;
    refuse_if(!well_formed(&register), BAD_IMAGE)?;
    Ok(register)
}

/// Load as a call of a list (§7.1.2): the register of the image takes the place
/// of the one before, whatever that was, with the value 0; refused, it stays.
pub fn load_into(register: &mut Register, image: &[u8]) -> Answer {
    *register = load(image)?;
    Ok(0)
}

/// The image of a register. It is defined on all registers, so that images of
/// broken ones can be tried as well; only of one that keeps the rules does it
/// hold everything.
pub fn encode(register: &Register) -> Vec<u8> {
    let mut out = Vec::with_capacity(LONGEST);
    out.extend(register.clock.to_be_bytes());
    out.extend(register.enrolled.to_le_bytes());
    write_domains(&mut out, register);
    write_roles(&mut out, register);
    out.extend(register.count.to_be_bytes());
    let count = usize::from(register.count).min(CAPABILITIES);
    for capability in &register.capabilities[..count] {
        write_capability(&mut out, capability);
    }
    write_sessions(&mut out, register);
    out
}

/// A domain for each enrolled user (§8.2.1).
fn write_domains(out: &mut Vec<u8>, register: &Register) {
    for (user, &domain) in register.domains.iter().enumerate() {
        if register.has_user(user as u8) {
            out.push(domain);
        }
    }
}

/// The map of founded roles, and their records (§8.2.1).
fn write_roles(out: &mut Vec<u8>, register: &Register) {
    let founded = register.roles.iter().map(|role| role.founded);
    out.extend(&map_of(founded).to_le_bytes()[..4]);
    for role in register.roles.iter().filter(|role| role.founded) {
        write_role(out, role);
    }
}

/// A role's record (§8.2.2).
fn write_role(out: &mut Vec<u8>, role: &Role) {
    out.push(role.domain);
    out.extend(role.permissions.to_be_bytes());
    out.extend(&role.hours.to_be_bytes()[1..]);
    out.extend(role.places.to_be_bytes());
    out.extend(role.devices.to_be_bytes());
    out.extend(role.appointed.to_le_bytes());
}

/// A capability's record: head, field map, and the fields that are not 0
/// (§8.2.4, §8.2.5).
fn write_capability(out: &mut Vec<u8>, capability: &Capability) {
    let fields: [&[u8]; 14] = [
        &capability.permissions.to_be_bytes(),
        &capability.lent.to_be_bytes(),
        &capability.holders.to_le_bytes(),
        &capability.first.to_be_bytes(),
        &capability.last.to_be_bytes(),
        &capability.use_limit.to_be_bytes(),
        &capability.uses.to_be_bytes(),
        &capability.creation_limit.to_be_bytes(),
        &capability.creations.to_be_bytes(),
        &capability.hop_limit.to_be_bytes(),
        &capability.hops.to_be_bytes(),
        &capability.hours.to_be_bytes()[1..],
        &capability.places.to_be_bytes(),
        &capability.devices.to_be_bytes(),
    ];
    let mut map = if capability.revoked { REVOKED_MARK } else { 0 };
    let mut present = Vec::new();
    for (bit, field) in fields.iter().enumerate() {
        if field.iter().any(|&byte| byte != 0) {
            map |= 1 << bit;
            present.extend_from_slice(field);
        }
    }
    write_origin(out, capability.origin);
    out.push(capability.creator);
    out.extend(map.to_be_bytes());
    out.extend(present);
}

/// The map of open sessions, and their records (§8.2.1, §8.2.3).
fn write_sessions(out: &mut Vec<u8>, register: &Register) {
    let open = register.sessions.iter().map(|session| session.active);
    out.extend(map_of(open).to_le_bytes());
    for session in register.sessions.iter().filter(|session| session.active) {
        let Session { user, on, hour, place, device, .. } = *session;
        out.push(user);
        write_origin(out, on);
        out.extend([hour, place, device]);
    }
}

/// Kind and number of an origin or target (§8.2.3).
fn write_origin(out: &mut Vec<u8>, origin: Origin) {
    match origin {
        Origin::Role(number) => out.extend([0, number]),
        Origin::Capability(number) => out.extend([1, number]),
    }
}

/// The mask with a bit for each item that is there.
fn map_of(items: impl Iterator<Item = bool>) -> u64 {
    let mut map = 0;
    for (item, there) in items.enumerate() {
        map |= u64::from(there) << item;
    }
    map
}

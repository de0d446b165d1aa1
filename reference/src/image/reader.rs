//! The strict reader of images: record by record, it gives up at the first
//! fault of the layout or the first number out of its range (§8.5.2).

use super::REVOKED_MARK;
use crate::register::{
    has, Capability, Origin, Register, Role, Session, CAPABILITIES, DEVICES, DOMAINS, HOURS,
    PLACES, ROLES, USERS,
};

/// The bit of the field map that is never set (§8.2.5).
const CLEAR_BIT: u16 = 1 << 15;

/// The bytes of the image that are not read yet.
struct Reader<'a> {
    rest: &'a [u8],
}

/// The register which the bytes show, if they have the layout of §8.2 and no
/// more, and each number is in its range. The other rules are not asked here.
pub fn decode(image: &[u8]) -> Option<Register> {
    let mut reader = Reader { rest: image };
    let mut register = Register::fresh();
    register.clock = reader.number(4)? as u32;
    reader.users(&mut register)?;
    reader.roles(&mut register)?;
    reader.capabilities(&mut register)?;
    reader.sessions(&mut register)?;
    reader.rest.is_empty().then_some(register)
}

impl<'a> Reader<'a> {
    /// The next bytes, if as many are left.
    fn take(&mut self, length: usize) -> Option<&'a [u8]> {
        let (taken, rest) = self.rest.split_at_checked(length)?;
        self.rest = rest;
        Some(taken)
    }

    /// A number, big-endian (§8.1.1).
    fn number(&mut self, length: usize) -> Option<u64> {
        let bytes = self.take(length)?;
        Some(bytes.iter().fold(0, |number, &byte| number << 8 | u64::from(byte)))
    }

    /// A map, little-endian (§8.1.2).
    fn map(&mut self, length: usize) -> Option<u64> {
        let bytes = self.take(length)?;
        Some(bytes.iter().rev().fold(0, |map, &byte| map << 8 | u64::from(byte)))
    }

    /// A number of one byte, below `end`.
    fn small(&mut self, end: usize) -> Option<u8> {
        let byte = self.number(1)? as u8;
        (usize::from(byte) < end).then_some(byte)
    }

    /// The map of enrolled users, and their domains (§8.2.1).
    fn users(&mut self, register: &mut Register) -> Option<()> {
        register.enrolled = self.map(8)?;
        for (user, domain) in register.domains.iter_mut().enumerate() {
            if has(register.enrolled, user as u8) {
                *domain = self.small(DOMAINS)?;
            }
        }
        Some(())
    }

    /// The map of founded roles, and their records (§8.2.1).
    fn roles(&mut self, register: &mut Register) -> Option<()> {
        let founded = self.map(4)?;
        for (number, role) in register.roles.iter_mut().enumerate() {
            if has(founded, number as u8) {
                *role = self.role()?;
            }
        }
        Some(())
    }

    /// A role's record (§8.2.2).
    fn role(&mut self) -> Option<Role> {
        Some(Role {
            founded: true,
            domain: self.small(DOMAINS)?,
            permissions: self.number(4)? as u32,
            hours: self.number(3)? as u32,
            places: self.number(2)? as u16,
            devices: self.number(2)? as u16,
            appointed: self.map(8)?,
        })
    }

    /// The count of capabilities, and their records (§8.2.1).
    fn capabilities(&mut self, register: &mut Register) -> Option<()> {
        register.count = self.number(2)? as u16;
        if usize::from(register.count) > CAPABILITIES {
            return None;
        }
        for number in register.numbers() {
            register.capabilities[usize::from(number)] = self.capability()?;
        }
        Some(())
    }

    /// A capability's record (§8.2.4): its head, the field map, and the fields
    /// by their bits and widths (§8.2.5).
    fn capability(&mut self) -> Option<Capability> {
        let origin = self.origin()?;
        let creator = self.small(USERS)?;
        let map = self.number(2)? as u16;
        if map & CLEAR_BIT != 0 {
            return None;
        }
        Some(Capability {
            origin,
            creator,
            permissions: self.field(map, 0, 4)? as u32,
            lent: self.field(map, 1, 4)? as u32,
            holders: self.field(map, 2, 8)?.swap_bytes(),
            first: self.field(map, 3, 4)? as u32,
            last: self.field(map, 4, 4)? as u32,
            use_limit: self.field(map, 5, 2)? as u16,
            uses: self.field(map, 6, 2)? as u16,
            creation_limit: self.field(map, 7, 2)? as u16,
            creations: self.field(map, 8, 2)? as u16,
            hop_limit: self.field(map, 9, 2)? as u16,
            hops: self.field(map, 10, 2)? as u16,
            hours: self.field(map, 11, 3)? as u32,
            places: self.field(map, 12, 2)? as u16,
            devices: self.field(map, 13, 2)? as u16,
            revoked: map & REVOKED_MARK != 0,
        })
    }

    /// A field: absent it is 0, and present with the value 0 it is a fault
    /// (§8.2.5). Read as a number; the holders are a map, whose bytes stand the
    /// other way round.
    fn field(&mut self, map: u16, bit: u8, length: usize) -> Option<u64> {
        if !has(map, bit) {
            return Some(0);
        }
        self.number(length).filter(|&value| value != 0)
    }

    /// Kind and number of an origin or target (§8.2.3), the number in the range
    /// of its kind.
    fn origin(&mut self) -> Option<Origin> {
        match self.small(2)? {
            0 => self.small(ROLES).map(Origin::Role),
            _ => self.small(CAPABILITIES).map(Origin::Capability),
        }
    }

    /// The map of open sessions, and their records (§8.2.1).
    fn sessions(&mut self, register: &mut Register) -> Option<()> {
        let open = self.map(8)?;
        for (number, session) in register.sessions.iter_mut().enumerate() {
            if has(open, number as u8) {
                *session = self.session()?;
            }
        }
        Some(())
    }

    /// A session's record (§8.2.3).
    fn session(&mut self) -> Option<Session> {
        Some(Session {
            active: true,
            user: self.small(USERS)?,
            on: self.origin()?,
            hour: self.small(HOURS)?,
            place: self.small(PLACES)?,
            device: self.small(DEVICES)?,
        })
    }
}

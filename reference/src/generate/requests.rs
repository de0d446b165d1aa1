//! Random requests which fit a register: most of them are accepted, many are
//! refused for one reason, and some have numbers out of all ranges.

use super::draw::{named, Draw};
use super::{Profile, BOUNDARIES};
use crate::calls::apply_trusted;
use crate::random::Random;
use crate::register::{has, Origin, Register, CREATE};
use crate::request::{Creation, Opening, Request};

/// A random request for this register, which must keep the rules. Numbers
/// above 32 bits occur seldom: they are refused with 2 as calls, and with 1 as
/// lines.
pub fn request(random: &mut Random, register: &Register, profile: &Profile) -> Request {
    let mut draw = Draw { random, register, profile };
    let missing = draw.missing();
    let urgency = if register.count == 0 { 4 } else { 1 };
    let mut request = match missing {
        Some(needed) if draw.random.chance(urgency, 8) => needed,
        _ => draw.any(),
    };
    if draw.random.chance(profile.wild, 1000) {
        replace_argument(random, &mut request);
    }
    request
}

/// A list of so many random requests, each fit to the register which the
/// requests before it leave.
pub fn requests(
    random: &mut Random,
    start: &Register,
    profile: &Profile,
    length: usize,
) -> Vec<Request> {
    let mut register = start.clone();
    let mut list = Vec::with_capacity(length);
    for _ in 0..length {
        let next = request(random, &register, profile);
        let _ = apply_trusted(&mut register, &next);
        list.push(next);
    }
    list
}

/// Replaces one argument by any number.
fn replace_argument(random: &mut Random, request: &mut Request) {
    if let Request::Amend { change, .. } = request {
        if random.chance(1, 2) {
            let size = random.pick(&BOUNDARIES).min(u64::from(u32::MAX)) as i64;
            *change = if random.chance(1, 2) { size } else { -size };
            return;
        }
    }
    let mut arguments = request.arguments_mut();
    let place = random.below(arguments.len() as u64) as usize;
    *arguments[place] = match random.below(4) {
        0 => random.bits() >> random.below(64),
        _ => random.pick(&BOUNDARIES),
    };
}

impl Draw<'_> {
    /// A request for something without which little is accepted: users, roles
    /// with the permission to create, and somebody appointed to them.
    fn missing(&mut self) -> Option<Request> {
        let user = (0..self.profile.users).find(|&user| !self.register.has_user(user as u8));
        if let Some(user) = user {
            let domain = self.random.below(self.profile.domains);
            return Some(Request::Enrol { user, domain });
        }
        let founded = |role: &u64| self.register.has_role(*role as u8);
        if let Some(role) = (0..self.profile.roles).find(|role| !founded(role)) {
            return Some(self.found(role));
        }
        let powerless = |role: &u64| !has(self.register.role(*role as u8).permissions, CREATE);
        if let Some(role) = (0..self.profile.roles).find(powerless) {
            return Some(Request::Grant { role, permission: u64::from(CREATE) });
        }
        let vacant = |role: &u64| self.register.role(*role as u8).appointed == 0;
        let role = (0..self.profile.roles).find(vacant)?;
        let user = self.random.bit(self.users_of_domain(role))?;
        Some(Request::Appoint { user, role })
    }

    /// One of the calls, by their weights.
    fn any(&mut self) -> Request {
        let mut left = self.random.below(self.profile.weights.iter().sum());
        let mut index = 0;
        while left >= self.profile.weights[index] {
            left -= self.profile.weights[index];
            index += 1;
        }
        match index {
            0 => Request::Enrol { user: self.user(), domain: self.domain() },
            1 => {
                let role = self.role();
                self.found(role)
            }
            2 => Request::Grant { role: self.role(), permission: self.permission() },
            3 => Request::Withdraw { role: self.role(), permission: self.permission() },
            4 => self.appoint(),
            5 => self.dismiss(),
            6 => self.clock(),
            7 => self.create(),
            8 => self.allow(),
            9 => self.lend(),
            10 => self.hand(),
            11 => self.open(),
            12 => self.check(),
            13 => self.amend(),
            14 => self.revoke(),
            15 => Request::Close { session: self.session(true) },
            _ => self.same(),
        }
    }

    fn found(&mut self, role: u64) -> Request {
        Request::Found {
            role,
            domain: self.domain(),
            hours: self.narrowed(0xff_ffff),
            places: self.narrowed(0xffff),
            devices: self.narrowed(0xffff),
        }
    }

    fn appoint(&mut self) -> Request {
        let role = self.role();
        let neighbour = self.random.bit(self.users_of_domain(role));
        match neighbour {
            Some(user) if !self.random.chance(1, 4) => Request::Appoint { user, role },
            _ => Request::Appoint { user: self.user(), role },
        }
    }

    fn dismiss(&mut self) -> Request {
        let role = self.role();
        Request::Dismiss { user: self.member(Origin::Role(role as u8)), role }
    }

    /// Mostly a few ticks on or to the border of a life, seldom back or far.
    fn clock(&mut self) -> Request {
        let now = u64::from(self.register.clock);
        let tick = match self.random.below(16) {
            0 => now.saturating_sub(self.random.between(1, 3)),
            1 => now,
            2 => now + self.random.below(100),
            3..=10 => self.border(),
            _ => now + self.random.between(1, 4),
        };
        Request::Clock { tick: tick.min(u64::from(u32::MAX)) }
    }

    fn create(&mut self) -> Request {
        let fertile = |register: &Register, number| {
            let capability = register.capability(number);
            has(register.authority(Origin::Capability(number)), CREATE)
                && capability.creations < capability.creation_limit
        };
        let twin = self.random.chance(self.profile.twins, 16);
        let role = self.staffed_role().filter(|_| twin && self.random.chance(1, 3));
        let origin = match self.bordering(fertile) {
            Some(number) => Origin::Capability(number),
            None => role.unwrap_or_else(|| self.origin(fertile)),
        };
        let bounds = self.register.bounds(origin);
        let (first, last) = self.life(&bounds);
        let mut creation = Creation {
            user: self.member(origin),
            origin: named(origin),
            hour: self.admitted(bounds.hours, 24),
            place: self.admitted(bounds.places.into(), 16),
            device: self.admitted(bounds.devices.into(), 16),
            first,
            last,
            use_limit: self.limit(bounds.use_limit),
            creation_limit: self.limit(bounds.creation_limit),
            hop_limit: self.limit(bounds.hop_limit),
            hours: self.narrowed(bounds.hours),
            places: self.narrowed(bounds.places.into()),
            devices: self.narrowed(bounds.devices.into()),
        };
        if twin {
            self.resemble(&mut creation, origin);
        }
        if self.random.chance(1, 12) {
            self.enlarge(&mut creation);
        }
        Request::Create(creation)
    }

    /// Makes one thing larger than it may be, where there is a larger one, or
    /// asks for a life without a tick after the end.
    fn enlarge(&mut self, creation: &mut Creation) {
        let later = (creation.last + 1).min(u64::from(u32::MAX));
        match self.random.below(9) {
            0 => creation.first = creation.first.saturating_sub(1),
            1 => creation.last = later,
            2 => (creation.first, creation.last) = (later, later),
            3 => creation.use_limit = 65_535,
            4 => creation.creation_limit = 65_535,
            5 => creation.hop_limit = 65_535,
            6 => creation.hours = 0xff_ffff,
            7 => creation.places = 0xffff,
            _ => creation.devices = 0xffff,
        }
    }

    fn allow(&mut self) -> Request {
        if self.random.chance(1, 4) {
            if let Some((capability, permissions)) = self.catching_up() {
                return Request::Allow { user: self.creator(capability), capability, permissions };
            }
        }
        let capability = self.lacking(|kept| kept.permissions == 0);
        let authority = u64::from(self.bounds_above(capability).authority);
        let permissions = match self.random.below(12) {
            0 => self.random.below(1 << self.profile.permissions),
            1 => 0,
            2..=5 => authority,
            _ => self.random.subset(authority) | authority & 1,
        };
        Request::Allow { user: self.creator(capability), capability, permissions }
    }

    fn lend(&mut self) -> Request {
        let caught_up = match self.random.chance(1, 4) {
            true => self.catching_up_by_roles(),
            false => None,
        };
        let capability = caught_up.unwrap_or_else(|| self.lacking(|kept| kept.lent == 0));
        let roles = match self.random.below(12) {
            0 => 1 << self.role(),
            1 => 0,
            _ => u64::from(self.bounds_above(capability).roles),
        };
        Request::Lend { user: self.creator(capability), capability, roles }
    }

    fn hand(&mut self) -> Request {
        let capability = self.lacking(|kept| kept.holders == 0);
        Request::Hand { user: self.creator(capability), receiver: self.user(), capability }
    }

    fn open(&mut self) -> Request {
        let with_uses_left = |register: &Register, number| {
            let capability = register.capability(number);
            capability.uses < capability.use_limit
        };
        let on = match self.bordering(with_uses_left) {
            Some(number) => Origin::Capability(number),
            None => self.origin(|_, _| true),
        };
        let bounds = self.register.bounds(on);
        Request::Open(Opening {
            session: self.session(false),
            user: self.member(on),
            on: named(on),
            hour: self.admitted(bounds.hours, 24),
            place: self.admitted(bounds.places.into(), 16),
            device: self.admitted(bounds.devices.into(), 16),
        })
    }

    fn amend(&mut self) -> Request {
        let capability = self.capability();
        let change = match self.random.below(16) {
            0 => 65_535,
            1 => -65_535,
            2 => 0,
            3 => -(self.random.below(65_536) as i64),
            _ => self.random.between(1, 5) as i64 - 4,
        };
        Request::Amend { user: self.creator(capability), capability, change }
    }

    /// By the creator of any capability on the lineage, or by anybody.
    fn revoke(&mut self) -> Request {
        let capability = self.revocable();
        if self.random.chance(1, 8) || capability >= u64::from(self.register.count) {
            return Request::Revoke { user: self.user(), capability };
        }
        let line = self.register.lineage(capability as u8).capabilities;
        let upper = u64::from(self.random.pick(&line));
        Request::Revoke { user: self.creator(upper), capability }
    }

    /// A capability on the lineage from the capability of an open session, or
    /// any capability.
    fn revocable(&mut self) -> u64 {
        let session = self.session(true) as usize;
        let on = self.register.sessions.get(session).map(|session| session.on);
        match (on, self.random.below(3)) {
            (Some(Origin::Capability(number)), 0) => {
                let line = self.register.lineage(number).capabilities;
                self.random.pick(&line).into()
            }
            (_, 1) => self.capability(),
            _ => self.random.below(self.register.count.into()),
        }
    }
}

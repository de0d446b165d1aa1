//! Draws of single arguments that fit a register.

use super::Profile;
use crate::random::Random;
use crate::register::{Bounds, Capability, Origin, Register, PERMISSIONS};
use crate::request::Named;

/// The number of an origin as the argument of create and open.
pub fn named(origin: Origin) -> Named {
    match origin {
        Origin::Role(number) => Named::Role(u64::from(number)),
        Origin::Capability(number) => Named::Capability(u64::from(number)),
    }
}

/// Draws arguments that fit the register.
pub struct Draw<'a> {
    pub random: &'a mut Random,
    pub register: &'a Register,
    pub profile: &'a Profile,
}

impl Draw<'_> {
    pub fn user(&mut self) -> u64 {
        self.random.below(self.profile.users)
    }

    pub fn domain(&mut self) -> u64 {
        self.random.below(self.profile.domains)
    }

    pub fn role(&mut self) -> u64 {
        self.random.below(self.profile.roles)
    }

    /// A low permission, or in a quarter of the cases one of as many high ones.
    pub fn permission(&mut self) -> u64 {
        let permission = self.random.below(self.profile.permissions);
        match self.random.chance(1, 4) {
            true => PERMISSIONS as u64 - 1 - permission,
            false => permission,
        }
    }

    /// A capability, more often a late one, and seldom one that is not there.
    pub fn capability(&mut self) -> u64 {
        let count = u64::from(self.register.count);
        match self.random.below(12) {
            0 => self.random.between(0, count.min(255)),
            1..=4 => count.saturating_sub(1),
            5..=7 => count.saturating_sub(self.random.between(1, 4)),
            _ => self.random.below(count),
        }
    }

    /// A capability that lacks something, the last one in half of the cases; if
    /// none is drawn so, any capability.
    pub fn lacking(&mut self, lacks: impl Fn(&Capability) -> bool) -> u64 {
        let open = |number: &u8| {
            let capability = self.register.capability(*number);
            !capability.revoked && lacks(capability)
        };
        let lacking: Vec<u8> = self.register.numbers().filter(open).collect();
        match self.random.below(3) {
            0 if !lacking.is_empty() => self.random.pick(&lacking).into(),
            1 if !lacking.is_empty() => lacking[lacking.len() - 1].into(),
            _ => self.capability(),
        }
    }

    /// A session, mostly one that is open or not, as asked.
    pub fn session(&mut self, open: bool) -> u64 {
        let fits = |number: &u64| self.register.sessions[*number as usize].active == open;
        let fitting: Vec<u64> = (0..self.profile.sessions.min(64)).filter(fits).collect();
        if fitting.is_empty() || self.random.chance(1, 12) {
            return self.random.below(self.profile.sessions);
        }
        self.random.pick(&fitting)
    }

    /// The users enrolled in the domain of the role.
    pub fn users_of_domain(&self, role: u64) -> u64 {
        let domain = self.register.roles.get(role as usize).map(|role| role.domain);
        let fits = |user: &u64| Some(self.register.domains[*user as usize]) == domain;
        let mask = (0..64).filter(fits).fold(0, |mask, user| mask | 1 << user);
        mask & self.register.enrolled
    }

    /// Mostly the creator of the capability.
    pub fn creator(&mut self, capability: u64) -> u64 {
        match self.register.capabilities.get(capability as usize) {
            Some(kept) if !self.random.chance(1, 16) => u64::from(kept.creator),
            _ => self.user(),
        }
    }

    /// Mostly one who is appointed to the role or holds the capability.
    pub fn member(&mut self, origin: Origin) -> u64 {
        let member = self.random.bit(self.register.members(origin));
        match member {
            Some(user) if !self.random.chance(1, 16) => user,
            _ => self.user(),
        }
    }

    /// A bit of the mask, seldom one of those below `end` that it lacks.
    pub fn admitted(&mut self, mask: u32, end: u64) -> u64 {
        let mask = u64::from(mask);
        let others = ((1 << end) - 1) & !mask;
        let wanted = match self.random.chance(1, 20) && others != 0 {
            true => others,
            false => mask,
        };
        self.random.bit(wanted).unwrap_or(0)
    }

    /// Whether the next limit, life or mask is to be narrower.
    pub fn narrower(&mut self) -> bool {
        self.random.chance(self.profile.narrow, 16)
    }

    /// The mask, or one with a bit less.
    pub fn narrowed(&mut self, mask: u32) -> u64 {
        let bit = self.random.bit(u64::from(mask)).unwrap_or(0);
        match self.narrower() {
            true => u64::from(mask) & !(1 << bit),
            false => u64::from(mask),
        }
    }

    /// A limit that fits: the origin's, or a smaller one.
    pub fn limit(&mut self, upper: u16) -> u64 {
        let upper = u64::from(upper);
        if !self.narrower() {
            return upper;
        }
        match self.random.below(8) {
            0 => 0,
            1 => self.random.between(0, upper),
            _ => self.random.between(1, 6).min(upper),
        }
    }

    /// Where to create or open: mostly a capability of which somebody can make
    /// use, the one with the longest lineage or a late one; otherwise a role,
    /// or any capability.
    pub fn origin(&mut self, usable: impl Fn(&Register, u8) -> bool) -> Origin {
        let fits = |number: &u8| {
            let capability = self.register.capability(*number);
            let alive = self.register.in_life(Origin::Capability(*number));
            !capability.revoked && capability.holders != 0 && alive
        };
        let all = self.register.numbers().filter(fits);
        let fitting: Vec<u8> = all.filter(|number| usable(self.register, *number)).collect();
        match self.random.below(12) {
            0 if self.register.count > 0 => {
                Origin::Capability(self.random.below(self.register.count.into()) as u8)
            }
            1..=4 if !fitting.is_empty() => Origin::Capability(self.deepest(&fitting)),
            5..=9 if !fitting.is_empty() => {
                let pair = [self.random.pick(&fitting), self.random.pick(&fitting)];
                Origin::Capability(pair[0].max(pair[1]))
            }
            _ => Origin::Role(self.role() as u8),
        }
    }

    /// The capability with the longest lineage, the last one of these.
    fn deepest(&self, numbers: &[u8]) -> u8 {
        let depth = |number: &&u8| self.register.lineage(**number).capabilities.len();
        numbers.iter().max_by_key(depth).copied().unwrap_or(0)
    }

    /// The bounds of the capability from above, if it is there.
    pub fn bounds_above(&self, capability: u64) -> Bounds {
        let kept = self.register.capabilities.get(capability as usize);
        let origin = kept.map_or(Origin::default(), |kept| kept.origin);
        self.register.bounds(origin)
    }
}

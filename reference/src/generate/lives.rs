//! Draws at the borders of lives (§3.3.2), which a random tick hardly meets.

use super::draw::Draw;
use crate::register::{has, Bounds, Capability, Origin, Register, Session};

/// A border is near if it is at most so many ticks away.
const NEAR: u32 = 100;

/// The first tick of a life, the one before its last, and its last.
pub fn borders(capability: &Capability) -> [u32; 3] {
    [capability.first, capability.last.saturating_sub(1), capability.last]
}

impl Draw<'_> {
    /// A life that fits, often one that ends soon, and seldom one that ends as
    /// it begins.
    pub fn life(&mut self, bounds: &Bounds) -> (u64, u64) {
        let (first, last) = (u64::from(bounds.first), u64::from(bounds.last));
        let now = u64::from(self.register.clock);
        if self.narrower() && self.random.chance(1, 4) {
            let only = (now + self.random.below(10)).clamp(first, last);
            return (only, only);
        }
        let start = match self.narrower() {
            true if self.random.chance(1, 2) => self.random.between(first, now.min(last)),
            true => self.random.between(first, last.min(now + 10)),
            false => first,
        };
        let end = match self.narrower() {
            true => (now + self.random.below(80)).min(last).max(start),
            false => last,
        };
        (start, end)
    }

    /// A tick to which the clock may go: the nearest border ahead, in half of
    /// the cases of a capability on which a session is open; the next tick if
    /// none is near; and seldom one of the last two of all.
    pub fn border(&mut self) -> u64 {
        if self.random.chance(1, 100) {
            return u64::from(u32::MAX) - self.random.below(2);
        }
        let in_session = self.random.chance(1, 2);
        let fits = |number: &u8| {
            let revoked = self.register.capability(*number).revoked;
            !revoked && (!in_session || self.is_in_session(*number))
        };
        let now = self.register.clock;
        let lives = self.register.numbers().filter(fits);
        let ticks = lives.flat_map(|number| borders(self.register.capability(number)));
        let ahead = ticks.filter(|&tick| now < tick && tick - now <= NEAR);
        ahead.min().map_or(u64::from(now) + 1, u64::from)
    }

    /// Whether a session is open on the capability.
    fn is_in_session(&self, number: u8) -> bool {
        let on = Origin::Capability(number);
        self.register.sessions.iter().any(|session| session.active && session.on == on)
    }

    /// Whether the clock is at a border of the capability's life.
    fn is_at_border(&self, number: u8) -> bool {
        borders(self.register.capability(number)).contains(&self.register.clock)
    }

    /// In a third of the cases a capability at a border of its life, of which
    /// somebody could make use in time, if there is one.
    pub fn bordering(&mut self, usable: impl Fn(&Register, u8) -> bool) -> Option<u8> {
        let fits = |number: &u8| {
            let capability = self.register.capability(*number);
            let held = !capability.revoked && capability.holders != 0;
            held && self.is_at_border(*number) && usable(self.register, *number)
        };
        let fitting: Vec<u8> = self.register.numbers().filter(fits).collect();
        let wanted = !fitting.is_empty() && self.random.chance(1, 3);
        wanted.then(|| self.random.pick(&fitting))
    }

    /// An open session of a holder on a capability that is at a border of its
    /// life and not revoked, if there is one.
    pub fn bordering_session(&mut self) -> Option<u64> {
        let fits = |place: &u64| match self.register.sessions[*place as usize] {
            Session { active: true, on: Origin::Capability(on), user, .. } => {
                let Capability { holders, revoked, .. } = *self.register.capability(on);
                has(holders, user) && !revoked && self.is_at_border(on)
            }
            _ => false,
        };
        let fitting: Vec<u64> = (0..64).filter(fits).collect();
        (!fitting.is_empty()).then(|| self.random.pick(&fitting))
    }
}

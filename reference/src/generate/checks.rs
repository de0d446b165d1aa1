//! Draws of checks: most of them in a context that is admitted, and many in one
//! that differs from such a one in a number that alone decides.

use super::contexts::{masks, ENDS, PARTS};
use super::draw::Draw;
use crate::register::{Origin, Session};
use crate::request::{Inquiry, Request};

/// What is added to a number so that it is beyond its range: some sums are the
/// number itself again where only the low bits are kept.
const BEYOND: [u64; 6] = [24, 32, 64, 256, 65_536, 4_294_967_040];

impl Draw<'_> {
    /// Any permission, or one that the session's target has. In half of the
    /// cases the session is on a capability at a border of its life, and then
    /// the context is mostly admitted, so that the life decides.
    pub fn check(&mut self) -> Request {
        if self.random.chance(1, 12) {
            return self.check_beyond();
        }
        let bordering = match self.random.chance(1, 2) {
            true => self.bordering_session(),
            false => None,
        };
        let session = bordering.unwrap_or_else(|| self.session(true));
        let opened = self.opened(session);
        let context = match bordering.is_some() && self.random.chance(3, 4) {
            true => self.admitted_context(&opened),
            false => self.context(&opened),
        };
        self.inquiry(session, &opened, context)
    }

    /// A check with one number of its context out of range, on a session that is
    /// open or not.
    fn check_beyond(&mut self) -> Request {
        let open = self.random.chance(1, 2);
        let session = self.session(open);
        let opened = self.opened(session);
        let mut context = self.admitted_context(&opened);
        let part = self.random.below(PARTS.len() as u64) as usize;
        context[part] = match self.random.chance(1, 2) {
            true => ENDS[part],
            false => context[part] + self.random.pick(&BEYOND),
        };
        self.inquiry(session, &opened, context)
    }

    fn inquiry(&mut self, session: u64, opened: &Session, context: [u64; 3]) -> Request {
        let carried = self.random.bit(self.register.authority(opened.on).into());
        let permission = match carried {
            Some(permission) if self.random.chance(3, 4) => permission,
            _ => self.permission(),
        };
        let [hour, place, device] = context;
        Request::Check(Inquiry { session, permission, hour, place, device })
    }

    /// The session with this number; one that cannot be is as one not open.
    fn opened(&self, session: u64) -> Session {
        self.register.sessions.get(session as usize).copied().unwrap_or_default()
    }

    /// Admitted, with one number that is not, with more of them, or any.
    fn context(&mut self, opened: &Session) -> [u64; 3] {
        let mut context = self.admitted_context(opened);
        match self.random.below(16) {
            0..=3 => self.move_out(opened, &mut context, 1),
            4 => self.move_out(opened, &mut context, 2),
            5 => self.move_out(opened, &mut context, 3),
            6 => context = ENDS.map(|end| self.random.below(end)),
            _ => (),
        }
        context
    }

    /// The context of the opening, the same but for one number, or any other
    /// that the target admits.
    fn admitted_context(&mut self, opened: &Session) -> [u64; 3] {
        let opening = [opened.hour, opened.place, opened.device].map(u64::from);
        let other = masks(self.register, opened.on).map(|mask| self.random.bit(mask).unwrap_or(0));
        let part = self.random.below(PARTS.len() as u64) as usize;
        match self.random.below(4) {
            0 => opening,
            1 | 2 => std::array::from_fn(|at| if at == part { other[at] } else { opening[at] }),
            _ => other,
        }
    }

    /// Replaces so many numbers, where the masks of the target leave some out:
    /// mostly by one that its origin admits.
    fn move_out(&mut self, opened: &Session, context: &mut [u64; 3], count: usize) {
        let own = masks(self.register, opened.on);
        let above = match opened.on {
            Origin::Capability(number) => {
                masks(self.register, self.register.capability(number).origin)
            }
            Origin::Role(_) => own,
        };
        let first = self.random.below(PARTS.len() as u64) as usize;
        let mut left = count;
        for part in [first, (first + 1) % 3, (first + 2) % 3] {
            let outside = ((1 << ENDS[part]) - 1) & !own[part];
            let between = match self.random.chance(7, 8) {
                true => outside & above[part],
                false => 0,
            };
            let number = self.random.bit(if between != 0 { between } else { outside });
            if let Some(number) = number.filter(|_| left > 0) {
                context[part] = number;
                left -= 1;
            }
        }
    }
}

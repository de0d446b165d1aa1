//! How often the context that a check names decides its answer, so that no
//! comparison passes for want of such checks. A value counts only where all else
//! speaks for a yes: in the context of its opening, which its target admits
//! (§4.4.1), the session would get one.

use crate::calls::apply_trusted;
use crate::refusal::{Answer, OUT_OF_RANGE};
use crate::register::{has, Context, Origin, Register, Session, DEVICES, HOURS, PLACES};
use crate::request::{Inquiry, Request};

/// The numbers of a context.
pub const PARTS: [&str; 3] = ["hour", "place", "device"];

/// Each of them is below this number (§1.2.1).
pub const ENDS: [u64; PARTS.len()] = [HOURS as u64, PLACES as u64, DEVICES as u64];

/// What one number of a context can bring about, all others being admitted.
pub const KINDS: [&str; 11] = [
    "0 on a role",
    "0 on a capability",
    "0 where the origin admits it",
    "1 on a role, at another than the opening's alone",
    "1 on a capability, at another than the opening's alone",
    "1 on a role, at the last of the range",
    "1 on a capability, at the last of the range",
    "2 just beyond the range, the session open",
    "2 further beyond, the session open",
    "2 just beyond the range, the session not open",
    "2 further beyond, the session not open",
];
const NO: usize = 0;
const NO_BELOW: usize = 2;
const ELSEWHERE: usize = 3;
const LAST: usize = 5;
const BEYOND: usize = 7;

/// What a context can bring about as a whole.
pub const WHOLES: [&str; 6] = [
    "1 on a role, in the opening's context",
    "1 on a capability, in the opening's context",
    "0 on a role, for two numbers",
    "0 on a capability, for two numbers",
    "0 on a role, for all three",
    "0 on a capability, for all three",
];

/// The counts.
#[derive(Clone, Debug, Default)]
pub struct Contexts {
    parts: [[u64; KINDS.len()]; PARTS.len()],
    wholes: [u64; WHOLES.len()],
}

impl Contexts {
    /// Counts what the context does, if the request is a check.
    pub fn add(&mut self, register: &Register, request: &Request) {
        let Request::Check(asked) = request else {
            return;
        };
        let context = [asked.hour, asked.place, asked.device];
        let beyond = places(|part| context[part] >= ENDS[part]);
        match beyond[..] {
            [] => self.add_in_range(register, asked, context),
            [part] => self.add_beyond(register, asked, part, context[part]),
            _ => (),
        }
    }

    /// How often the number of [`PARTS`] at this place did what [`KINDS`] says.
    pub fn part(&self, place: usize) -> [u64; KINDS.len()] {
        self.parts[place]
    }

    /// How often the context did what [`WHOLES`] has at this place.
    pub fn whole(&self, place: usize) -> u64 {
        self.wholes[place]
    }

    /// Of the context this number alone is out of its range; it counts if the
    /// session and the permission are in theirs.
    fn add_beyond(&mut self, register: &Register, asked: &Inquiry, part: usize, number: u64) {
        if answer(register, asked, [0; PARTS.len()]) == Err(OUT_OF_RANGE) {
            return;
        }
        let further = usize::from(number > ENDS[part]);
        let not_open = usize::from(opened(register, asked).is_none());
        self.parts[part][BEYOND + further + 2 * not_open] += 1;
    }

    fn add_in_range(&mut self, register: &Register, asked: &Inquiry, context: [u64; PARTS.len()]) {
        let Some(Session { on, hour, place, device, .. }) = opened(register, asked) else {
            return;
        };
        let opening = [hour, place, device].map(u64::from);
        if answer(register, asked, opening) != Ok(1) {
            return;
        }
        let masks = masks(register, on);
        let lacking = places(|part| !has(masks[part], context[part] as u8));
        let column = usize::from(matches!(on, Origin::Capability(_)));
        match lacking[..] {
            [] => self.add_yes(column, context, opening),
            [part] => {
                self.parts[part][NO + column] += 1;
                self.parts[part][NO_BELOW] += u64::from(admitted_above(register, on, context));
            }
            _ => self.wholes[2 * (lacking.len() - 1) + column] += 1,
        }
    }

    fn add_yes(&mut self, column: usize, context: [u64; 3], opening: [u64; 3]) {
        match places(|part| context[part] != opening[part])[..] {
            [] => self.wholes[column] += 1,
            [part] => self.parts[part][ELSEWHERE + column] += 1,
            _ => (),
        }
        for part in places(|part| context[part] + 1 == ENDS[part]) {
            self.parts[part][LAST + column] += 1;
        }
    }
}

/// The places of [`PARTS`] of which this holds.
fn places(holds: impl Fn(usize) -> bool) -> Vec<usize> {
    (0..PARTS.len()).filter(|&part| holds(part)).collect()
}

/// The masks of a role or capability, in the order of [`PARTS`].
pub fn masks(register: &Register, on: Origin) -> [u64; PARTS.len()] {
    let bounds = register.bounds(on);
    [bounds.hours.into(), bounds.places.into(), bounds.devices.into()]
}

/// The session asked, if it is open.
fn opened(register: &Register, asked: &Inquiry) -> Option<Session> {
    let session = register.sessions.get(usize::try_from(asked.session).ok()?)?;
    session.active.then_some(*session)
}

/// What the same check is answered in this context.
fn answer(register: &Register, asked: &Inquiry, context: [u64; PARTS.len()]) -> Answer {
    let [hour, place, device] = context;
    let there = Inquiry { hour, place, device, ..*asked };
    apply_trusted(&mut register.clone(), &Request::Check(there))
}

/// Whether this is a capability whose origin admits the context.
fn admitted_above(register: &Register, on: Origin, context: [u64; PARTS.len()]) -> bool {
    let [hour, place, device] = context.map(|number| number as u8);
    match on {
        Origin::Role(_) => false,
        Origin::Capability(number) => {
            register.admits(register.capability(number).origin, Context { hour, place, device })
        }
    }
}

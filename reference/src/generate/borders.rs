//! How often requests meet the border of a life, so that no comparison passes
//! for want of them. A request counts only if the life alone decides its
//! answer: a tick away, with all else as it is, the answer is another one.

use crate::calls::apply_trusted;
use crate::register::{Capability, Origin, Register};
use crate::request::{Named, Request};

/// The calls that ask whether something is in life.
pub const CALLS: [&str; 3] = ["create", "open", "check"];

/// Where the clock stands in the life of what a request is on.
#[derive(Clone, Copy, Debug, PartialEq, Eq)]
pub enum Border {
    /// At the first tick of a capability, and a tick earlier is too early.
    First,
    /// At the tick before the last one of a capability, and the next tick is
    /// too late.
    BeforeLast,
    /// At the last tick of a capability, and a tick earlier is in time; the
    /// clock can go on.
    Last,
    /// The same, at the last tick which the clock can show.
    LastOfAll,
    /// At the first tick of a capability, which is its last too; with the last
    /// a tick later, it would be in time.
    Never,
    /// At the last tick which the clock can show, on a role, which is in life.
    RoleAtEnd,
}

impl Border {
    pub const ALL: [Border; 6] = [
        Border::First,
        Border::BeforeLast,
        Border::Last,
        Border::LastOfAll,
        Border::Never,
        Border::RoleAtEnd,
    ];

    /// What stands before the counts.
    pub fn name(self) -> &'static str {
        match self {
            Border::First => "at the first tick",
            Border::BeforeLast => "before the last tick",
            Border::Last => "at the last tick",
            Border::LastOfAll => "at the last tick of all",
            Border::Never => "on a life without a tick",
            Border::RoleAtEnd => "on a role at the last tick of all",
        }
    }
}

/// The counts, by border and call.
#[derive(Clone, Debug, Default)]
pub struct Borders {
    met: [[u64; CALLS.len()]; Border::ALL.len()],
}

impl Borders {
    /// Counts the borders that the request meets, before it is performed on the
    /// register, which must keep the rules.
    pub fn add(&mut self, register: &Register, request: &Request) {
        let Some((call, target)) = asked(register, request) else {
            return;
        };
        for border in Border::ALL {
            self.met[border as usize][call] += u64::from(meets(register, request, target, border));
        }
    }

    /// How often each of [`CALLS`] met the border.
    pub fn met(&self, border: Border) -> [u64; CALLS.len()] {
        self.met[border as usize]
    }
}

/// The place of the call in [`CALLS`], and the role or capability whose life it
/// asks for; none if it is no such call or names nothing that is there.
fn asked(register: &Register, request: &Request) -> Option<(usize, Origin)> {
    match request {
        Request::Create(creation) => Some((0, there(register, creation.origin)?)),
        Request::Open(opening) => Some((1, there(register, opening.on)?)),
        Request::Check(inquiry) => {
            let session = register.sessions.get(usize::try_from(inquiry.session).ok()?)?;
            session.active.then_some((2, session.on))
        }
        _ => None,
    }
}

/// The role or capability with this number, if it is there.
fn there(register: &Register, named: Named) -> Option<Origin> {
    let origin = match named {
        Named::Role(number) => Origin::Role(u8::try_from(number).ok()?),
        Named::Capability(number) => Origin::Capability(u8::try_from(number).ok()?),
    };
    register.has_origin(origin).then_some(origin)
}

/// Whether the clock is at this border, which alone decides the answer.
fn meets(register: &Register, request: &Request, target: Origin, border: Border) -> bool {
    let number = match target {
        Origin::Role(_) => {
            let at_end = border == Border::RoleAtEnd && register.clock == u32::MAX;
            return at_end && granted(register, request);
        }
        Origin::Capability(number) => number,
    };
    let other = match border {
        Border::Never => lengthened(register, request, number),
        _ => a_tick_away(register, number, border),
    };
    other.is_some_and(|other| granted(register, request) != granted(&other, request))
}

/// Whether the request is accepted and, if it is a check, the value is 1.
fn granted(register: &Register, request: &Request) -> bool {
    match apply_trusted(&mut register.clone(), request) {
        Ok(value) => value == 1 || !matches!(request, Request::Check(_)),
        Err(_) => false,
    }
}

/// The register with the clock on the other side of the border, if it is at it.
fn a_tick_away(register: &Register, number: u8, border: Border) -> Option<Register> {
    let Capability { first, last, .. } = *register.capability(number);
    let now = register.clock;
    let clock = match border {
        Border::First if now == first => now.checked_sub(1)?,
        Border::BeforeLast if now.checked_add(1) == Some(last) => last,
        Border::Last if now == last && now < u32::MAX => now.checked_sub(1)?,
        Border::LastOfAll if now == last && now == u32::MAX => now - 1,
        _ => return None,
    };
    Some(Register { clock, ..register.clone() })
}

/// The register with a tick more in a life that has none, if the clock is where
/// that tick comes; it need not keep the rules. A create that asks for this tick
/// as well is refused for another reason too.
fn lengthened(register: &Register, request: &Request, number: u8) -> Option<Register> {
    let Capability { first, last, .. } = *register.capability(number);
    let longer = matches!(request, Request::Create(creation) if creation.last > u64::from(last));
    if first != last || register.clock != last || longer {
        return None;
    }
    let mut other = register.clone();
    other.capabilities[usize::from(number)].last = last.checked_add(1)?;
    Some(other)
}

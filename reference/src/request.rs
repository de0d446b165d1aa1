//! The requests: one case for each call of the register (§5.1.1).
//!
//! Numbers are as wide as 64 bits here, so that every number out of its range
//! can be asked for; such a number is refused with 2 (§5.2.3).

/// The target of create and open.
#[derive(Clone, Copy, Debug, PartialEq, Eq)]
pub enum Named {
    Role(u64),
    Capability(u64),
}

/// The arguments of create (§6.8.1).
#[derive(Clone, Copy, Debug, PartialEq, Eq)]
pub struct Creation {
    pub user: u64,
    pub origin: Named,
    pub hour: u64,
    pub place: u64,
    pub device: u64,
    pub first: u64,
    pub last: u64,
    pub use_limit: u64,
    pub creation_limit: u64,
    pub hop_limit: u64,
    pub hours: u64,
    pub places: u64,
    pub devices: u64,
}

/// The arguments of open (§6.12.1).
#[derive(Clone, Copy, Debug, PartialEq, Eq)]
pub struct Opening {
    pub session: u64,
    pub user: u64,
    pub on: Named,
    pub hour: u64,
    pub place: u64,
    pub device: u64,
}

/// The arguments of check (§6.13.1): the context is that of the moment, whatever
/// the session was opened in.
#[derive(Clone, Copy, Debug, PartialEq, Eq)]
pub struct Inquiry {
    pub session: u64,
    pub permission: u64,
    pub hour: u64,
    pub place: u64,
    pub device: u64,
}

/// One call with its arguments, in the order of §6, where a capability is
/// named by the word `pass`.
#[derive(Clone, Copy, Debug, PartialEq, Eq)]
pub enum Request {
    Enrol { user: u64, domain: u64 },
    Found { role: u64, domain: u64, hours: u64, places: u64, devices: u64 },
    Grant { role: u64, permission: u64 },
    Withdraw { role: u64, permission: u64 },
    Appoint { user: u64, role: u64 },
    Dismiss { user: u64, role: u64 },
    Clock { tick: u64 },
    Create(Creation),
    Allow { user: u64, capability: u64, permissions: u64 },
    Lend { user: u64, capability: u64, roles: u64 },
    Hand { user: u64, receiver: u64, capability: u64 },
    Open(Opening),
    Check(Inquiry),
    Amend { user: u64, capability: u64, change: i64 },
    Revoke { user: u64, capability: u64 },
    Close { session: u64 },
    Same { first: u64, second: u64 },
}

/// The words of the calls, in the order of §6 and of [`Request`].
pub const WORDS: [&str; 17] = [
    "enrol", "found", "grant", "withdraw", "appoint", "dismiss", "clock", "create", "allow",
    "lend", "hand", "open", "check", "amend", "revoke", "close", "same",
];

impl Named {
    /// The number after the word `role` or `pass`.
    pub fn number_mut(&mut self) -> &mut u64 {
        match self {
            Named::Role(number) | Named::Capability(number) => number,
        }
    }
}

impl Request {
    /// The place of the call in [`WORDS`].
    pub fn index(&self) -> usize {
        match self {
            Request::Enrol { .. } => 0,
            Request::Found { .. } => 1,
            Request::Grant { .. } => 2,
            Request::Withdraw { .. } => 3,
            Request::Appoint { .. } => 4,
            Request::Dismiss { .. } => 5,
            Request::Clock { .. } => 6,
            Request::Create(_) => 7,
            Request::Allow { .. } => 8,
            Request::Lend { .. } => 9,
            Request::Hand { .. } => 10,
            Request::Open(_) => 11,
            Request::Check(_) => 12,
            Request::Amend { .. } => 13,
            Request::Revoke { .. } => 14,
            Request::Close { .. } => 15,
            Request::Same { .. } => 16,
        }
    }

    /// The word of the call.
    pub fn word(&self) -> &'static str {
        WORDS[self.index()]
    }

    /// All unsigned arguments, in the order of the line; amend's change, which
    /// is signed, is not among them.
    pub fn arguments_mut(&mut self) -> Vec<&mut u64> {
        match self {
            Request::Enrol { user, domain } => vec![user, domain],
            Request::Found { role, domain, hours, places, devices } => {
                vec![role, domain, hours, places, devices]
            }
            Request::Grant { role, permission } => vec![role, permission],
            Request::Withdraw { role, permission } => vec![role, permission],
            Request::Appoint { user, role } => vec![user, role],
            Request::Dismiss { user, role } => vec![user, role],
            Request::Clock { tick } => vec![tick],
            Request::Create(creation) => creation.arguments_mut(),
            Request::Allow { user, capability, permissions } => vec![user, capability, permissions],
            Request::Lend { user, capability, roles } => vec![user, capability, roles],
            Request::Hand { user, receiver, capability } => vec![user, receiver, capability],
            Request::Open(opening) => opening.arguments_mut(),
            Request::Check(inquiry) => inquiry.arguments_mut(),
            Request::Amend { user, capability, .. } => vec![user, capability],
            Request::Revoke { user, capability } => vec![user, capability],
            Request::Close { session } => vec![session],
            Request::Same { first, second } => vec![first, second],
        }
    }
}

impl Creation {
    /// All numbers, in the order of the line.
    pub fn arguments_mut(&mut self) -> Vec<&mut u64> {
        vec![
            &mut self.user,
            self.origin.number_mut(),
            &mut self.hour,
            &mut self.place,
            &mut self.device,
            &mut self.first,
            &mut self.last,
            &mut self.use_limit,
            &mut self.creation_limit,
            &mut self.hop_limit,
            &mut self.hours,
            &mut self.places,
            &mut self.devices,
        ]
    }
}

impl Opening {
    /// All numbers, in the order of the line.
    pub fn arguments_mut(&mut self) -> Vec<&mut u64> {
        vec![
            &mut self.session,
            &mut self.user,
            self.on.number_mut(),
            &mut self.hour,
            &mut self.place,
            &mut self.device,
        ]
    }
}

impl Inquiry {
    /// All numbers, in the order of the line.
    pub fn arguments_mut(&mut self) -> Vec<&mut u64> {
        vec![
            &mut self.session,
            &mut self.permission,
            &mut self.hour,
            &mut self.place,
            &mut self.device,
        ]
    }
}

//! The calls (§5, §6): the test of the invariant, then the call asked for.
//!
//! Each call reads its arguments (2), asks for the things named (3), goes
//! through its own refusals in the order of its paragraph, and only then
//! changes the register, so that a refusal leaves it alone (§5.1.3).

mod administration;
mod arguments;
mod capabilities;
mod sessions;
mod tree;

use crate::refusal::{refuse_if, Answer, NOT_WELL_FORMED};
use crate::register::Register;
use crate::request::Request;
use crate::rules::well_formed;

/// Performs the request on any register: 15 comes before all refusals of the
/// call itself (§5.2.2).
pub fn apply(register: &mut Register, request: &Request) -> Answer {
    refuse_if(!well_formed(register), NOT_WELL_FORMED)?;
    apply_trusted(register, request)
}

/// Performs the request on a register that is known to keep the rules. On one
/// that breaks them, the answer has no meaning, and the call may panic.
pub fn apply_trusted(register: &mut Register, request: &Request) -> Answer {
    match *request {
        Request::Enrol { user, domain } => administration::enrol(register, user, domain),
        Request::Found { role, domain, hours, places, devices } => {
            administration::found(register, role, domain, [hours, places, devices])
        }
        Request::Grant { role, permission } => administration::grant(register, role, permission),
        Request::Withdraw { role, permission } => {
            administration::withdraw(register, role, permission)
        }
        Request::Appoint { user, role } => administration::appoint(register, user, role),
        Request::Dismiss { user, role } => administration::dismiss(register, user, role),
        Request::Clock { tick } => administration::clock(register, tick),
        Request::Create(ref asked) => capabilities::create(register, asked),
        Request::Allow { user, capability, permissions } => {
            capabilities::allow(register, user, capability, permissions)
        }
        Request::Lend { user, capability, roles } => {
            capabilities::lend(register, user, capability, roles)
        }
        Request::Hand { user, receiver, capability } => {
            capabilities::hand(register, user, receiver, capability)
        }
        Request::Open(ref asked) => sessions::open(register, asked),
        Request::Check(ref asked) => sessions::check(register, asked),
        Request::Amend { user, capability, change } => {
            tree::amend(register, user, capability, change)
        }
        Request::Revoke { user, capability } => tree::revoke(register, user, capability),
        Request::Close { session } => sessions::close(register, session),
        Request::Same { first, second } => tree::same(register, first, second),
    }
}

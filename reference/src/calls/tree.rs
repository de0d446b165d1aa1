//! The calls that read lineages: amend, revoke, same (§6.14, §6.15, §6.17).

use super::arguments::{self, need_origin, need_user};
use crate::refusal::{
    refuse_if, Answer, AT_LIMIT, EXCEEDS_ORIGIN, NOT_ENTITLED, NO_CHANGE, OUT_OF_RANGE, REVOKED,
};
use crate::register::{Origin, Register};

/// A change is at most this, up or down (§1.2.1).
const LARGEST_CHANGE: u64 = 65_535;

/// Changes a use limit: refusals by §6.14.1, what is done by §6.14.2.
pub fn amend(register: &mut Register, user: u64, capability: u64, change: i64) -> Answer {
    let user = arguments::user(user)?;
    let number = arguments::capability(capability)?;
    refuse_if(change.unsigned_abs() > LARGEST_CHANGE, OUT_OF_RANGE)?;
    need_user(register, user)?;
    need_origin(register, Origin::Capability(number))?;
    let capability = register.capability(number);
    refuse_if(capability.creator != user, NOT_ENTITLED)?;
    refuse_if(capability.revoked, REVOKED)?;
    refuse_if(change == 0, NO_CHANGE)?;
    let limit = i64::from(capability.use_limit) + change;
    refuse_if(limit < 0, AT_LIMIT)?;
    let upper = register.bounds(capability.origin).use_limit;
    refuse_if(limit > i64::from(upper), EXCEEDS_ORIGIN)?;
    set_use_limit(register, number, limit as u16);
    Ok(limit as u64)
}

/// Sets the limit, and lowers those below to it (§6.14.2).
fn set_use_limit(register: &mut Register, number: u8, limit: u16) {
    register.capabilities[usize::from(number)].use_limit = limit;
    for lower in register.numbers() {
        if register.is_below(lower, number) {
            let cut = &mut register.capabilities[usize::from(lower)].use_limit;
            *cut = limit.min(*cut);
        }
    }
}

/// Revokes from a capability downward: refusals by §6.15.1, what is marked by
/// §6.15.2.
pub fn revoke(register: &mut Register, user: u64, capability: u64) -> Answer {
    let user = arguments::user(user)?;
    let number = arguments::capability(capability)?;
    need_user(register, user)?;
    need_origin(register, Origin::Capability(number))?;
    let mut line = register.lineage(number).capabilities.into_iter();
    let entitled = line.any(|upper| register.capability(upper).creator == user);
    refuse_if(!entitled, NOT_ENTITLED)?;
    refuse_if(register.capability(number).revoked, REVOKED)?;
    Ok(mark(register, number))
}

/// Marks from the capability downward, and counts those that were unmarked.
fn mark(register: &mut Register, number: u8) -> u64 {
    let mut marked = 0;
    for lower in register.numbers() {
        let affected = lower == number || register.is_below(lower, number);
        if affected && !register.capability(lower).revoked {
            register.capabilities[usize::from(lower)].revoked = true;
            marked += 1;
        }
    }
    marked
}

/// Compares two capabilities: refusals by §6.17.1, the value by §6.17.2.
pub fn same(register: &Register, first: u64, second: u64) -> Answer {
    let first = arguments::capability(first)?;
    let second = arguments::capability(second)?;
    need_origin(register, Origin::Capability(first))?;
    need_origin(register, Origin::Capability(second))?;
    Ok(u64::from(register.compared(first) == register.compared(second)))
}

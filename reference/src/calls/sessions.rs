//! Sessions: open, check, close (§6.12, §6.13, §6.16).

use super::arguments::{self, need_origin, need_session, need_usable, need_user};
use crate::refusal::{refuse_if, Answer, AT_LIMIT, NOT_ENTITLED, NO_CHANGE};
use crate::register::{has, Origin, Register, Session};
use crate::request::{Inquiry, Opening};

/// Opens a session: refusals by §6.12.1, what is opened and counted by §6.12.2.
pub fn open(register: &mut Register, asked: &Opening) -> Answer {
    let session = usize::from(arguments::session(asked.session)?);
    let user = arguments::user(asked.user)?;
    let on = arguments::origin(asked.on)?;
    let context = arguments::context(asked.hour, asked.place, asked.device)?;
    need_user(register, user)?;
    need_origin(register, on)?;
    refuse_if(register.sessions[session].active, NO_CHANGE)?;
    refuse_if(!has(register.members(on), user), NOT_ENTITLED)?;
    need_usable(register, on, context)?;
    if let Origin::Capability(number) = on {
        let capability = &mut register.capabilities[usize::from(number)];
        refuse_if(capability.uses >= capability.use_limit, AT_LIMIT)?;
        capability.uses += 1;
    }
    register.sessions[session] = Session {
        active: true,
        user,
        on,
        hour: context.hour,
        place: context.place,
        device: context.device,
    };
    Ok(0)
}

/// Asks for a permission in a context: refusals by §6.13.1, the value by
/// §6.13.2. Where the session was opened is not asked.
pub fn check(register: &Register, asked: &Inquiry) -> Answer {
    let session = arguments::session(asked.session)?;
    let permission = arguments::permission(asked.permission)?;
    let context = arguments::context(asked.hour, asked.place, asked.device)?;
    need_session(register, session)?;
    let Session { user, on, .. } = register.sessions[usize::from(session)];
    let yes = has(register.members(on), user)
        && !register.bounds(on).revoked
        && register.in_life(on)
        && register.admits(on, context)
        && has(register.authority(on), permission);
    Ok(u64::from(yes))
}

/// Closes a session (§6.16.1).
pub fn close(register: &mut Register, session: u64) -> Answer {
    let session = arguments::session(session)?;
    need_session(register, session)?;
    register.sessions[usize::from(session)] = Session::default();
    Ok(0)
}

//! Checks of all sessions and permissions, in chosen contexts.

use reference::random::Random;
use reference::{apply_trusted, Answer, Context, Inquiry, Register, Request, Session};

/// The answers by session, context and permission.
pub type Checks = Vec<Vec<[Answer; 32]>>;

/// The context of the opening.
pub fn opening(session: &Session) -> Context {
    Context { hour: session.hour, place: session.place, device: session.device }
}

/// Whether masks of hours, places and devices have the three numbers, worked out
/// again (§3.3.4).
pub fn within(masks: [u32; 3], context: Context) -> bool {
    let Context { hour, place, device } = context;
    masks[0] >> hour & masks[1] >> place & masks[2] >> device & 1 == 1
}

/// Every context there is.
pub fn all_contexts() -> impl Iterator<Item = Context> {
    let number = |at: u32| Context {
        hour: (at / 256) as u8,
        place: (at / 16 % 16) as u8,
        device: (at % 16) as u8,
    };
    (0..24 * 16 * 16).map(number)
}

/// Any context.
pub fn any_context(random: &mut Random) -> Context {
    let mut below = |end| random.below(end) as u8;
    Context { hour: below(24), place: below(16), device: below(16) }
}

/// Contexts for each session: if it is open, that of its opening, three that
/// differ from it in one number, and any.
pub fn sampled(random: &mut Random, register: &Register) -> Vec<Vec<Context>> {
    let mut around = |session: &Session| {
        let (any, opening) = (any_context(random), opening(session));
        match session.active {
            false => vec![any],
            true => vec![
                opening,
                Context { hour: any.hour, ..opening },
                Context { place: any.place, ..opening },
                Context { device: any.device, ..opening },
                any,
            ],
        }
    };
    register.sessions.iter().map(&mut around).collect()
}

/// The check with these numbers.
pub fn inquiry(session: u64, permission: u64, context: Context) -> Request {
    let Context { hour, place, device } = context;
    let [hour, place, device] = [hour, place, device].map(u64::from);
    Request::Check(Inquiry { session, permission, hour, place, device })
}

/// All checks in these contexts, asked of a copy which they must not change.
pub fn all_checks(register: &Register, contexts: &[Vec<Context>]) -> Checks {
    let mut copy = register.clone();
    let mut checks = Vec::with_capacity(contexts.len());
    for (session, contexts) in (0..).zip(contexts) {
        let mut row = |context: &Context| {
            let mut ask = |permission: usize| {
                apply_trusted(&mut copy, &inquiry(session, permission as u64, *context))
            };
            std::array::from_fn(&mut ask)
        };
        checks.push(contexts.iter().map(&mut row).collect());
    }
    assert_eq!(copy, *register);
    checks
}

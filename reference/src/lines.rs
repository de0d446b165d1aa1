//! Lines (§9): bytes to a request, and an answer to bytes.

use crate::refusal::Answer;
use crate::request::{Creation, Inquiry, Named, Opening, Request};

/// The request of a line, given without its line feed; none if the line is
/// malformed (§9.1). The parts between spaces are taken as they are, so that a
/// space too many leaves an empty part, which is neither a word nor a number.
pub fn parse(line: &[u8]) -> Option<Request> {
    let mut parts = line.split(|&byte| byte == b' ');
    let word = parts.next()?;
    let rest: Vec<&[u8]> = parts.collect();
    match word {
        b"create" => parse_create(&rest),
        b"open" => parse_open(&rest),
        b"amend" => parse_amend(&rest),
        b"check" => parse_check(&rest),
        b"allow" | b"lend" | b"hand" | b"revoke" | b"close" | b"same" => {
            parse_capability_call(word, &rest)
        }
        _ => parse_administration_call(word, &rest),
    }
}

/// The calls from enrol to clock.
fn parse_administration_call(word: &[u8], rest: &[&[u8]]) -> Option<Request> {
    match word {
        b"enrol" => numbers(rest).map(|[user, domain]| Request::Enrol { user, domain }),
        b"found" => numbers(rest).map(|[role, domain, hours, places, devices]| Request::Found {
            role,
            domain,
            hours,
            places,
            devices,
        }),
        b"grant" => numbers(rest).map(|[role, permission]| Request::Grant { role, permission }),
        b"withdraw" => {
            numbers(rest).map(|[role, permission]| Request::Withdraw { role, permission })
        }
        b"appoint" => numbers(rest).map(|[user, role]| Request::Appoint { user, role }),
        b"dismiss" => numbers(rest).map(|[user, role]| Request::Dismiss { user, role }),
        b"clock" => numbers(rest).map(|[tick]| Request::Clock { tick }),
        _ => None,
    }
}

/// The calls from allow to same whose arguments are all plain numbers.
fn parse_capability_call(word: &[u8], rest: &[&[u8]]) -> Option<Request> {
    match word {
        b"allow" => numbers(rest).map(|[user, capability, permissions]| Request::Allow {
            user,
            capability,
            permissions,
        }),
        b"lend" => {
            numbers(rest).map(|[user, capability, roles]| Request::Lend { user, capability, roles })
        }
        b"hand" => numbers(rest).map(|[user, receiver, capability]| Request::Hand {
            user,
            receiver,
            capability,
        }),
        b"revoke" => numbers(rest).map(|[user, capability]| Request::Revoke { user, capability }),
        b"close" => numbers(rest).map(|[session]| Request::Close { session }),
        b"same" => numbers(rest).map(|[first, second]| Request::Same { first, second }),
        _ => None,
    }
}

/// The arguments of create (§6.8.1); its target is two of them (§9.1.2).
fn parse_create(rest: &[&[u8]]) -> Option<Request> {
    let [user, kind, origin, tail @ ..] = rest else {
        return None;
    };
    let tail: [u64; 11] = numbers(tail)?;
    let [hour, place, device, first, last, tail @ ..] = tail;
    let [use_limit, creation_limit, hop_limit, hours, places, devices] = tail;
    Some(Request::Create(Creation {
        user: number(user)?,
        origin: named(kind, origin)?,
        hour,
        place,
        device,
        first,
        last,
        use_limit,
        creation_limit,
        hop_limit,
        hours,
        places,
        devices,
    }))
}

/// The arguments of open (§6.12.1).
fn parse_open(rest: &[&[u8]]) -> Option<Request> {
    let [session, user, kind, on, tail @ ..] = rest else {
        return None;
    };
    let [hour, place, device] = numbers(tail)?;
    Some(Request::Open(Opening {
        session: number(session)?,
        user: number(user)?,
        on: named(kind, on)?,
        hour,
        place,
        device,
    }))
}

/// The arguments of check (§6.13.1).
fn parse_check(rest: &[&[u8]]) -> Option<Request> {
    let [session, permission, hour, place, device] = numbers(rest)?;
    Some(Request::Check(Inquiry { session, permission, hour, place, device }))
}

/// The arguments of amend (§6.14.1).
fn parse_amend(rest: &[&[u8]]) -> Option<Request> {
    let [user, capability, change] = rest else {
        return None;
    };
    Some(Request::Amend {
        user: number(user)?,
        capability: number(capability)?,
        change: signed(change)?,
    })
}

/// All parts as numbers, if there are just N (§9.1.2).
fn numbers<const N: usize>(parts: &[&[u8]]) -> Option<[u64; N]> {
    let parts: &[&[u8]; N] = parts.try_into().ok()?;
    let mut numbers = [0; N];
    for (place, part) in numbers.iter_mut().zip(parts) {
        *place = number(part)?;
    }
    Some(numbers)
}

/// A number (§9.1.3).
fn number(part: &[u8]) -> Option<u64> {
    let digits = !part.is_empty() && part.iter().all(u8::is_ascii_digit);
    let leading_zero = part.len() > 1 && part[0] == b'0';
    if !digits || leading_zero || part.len() > 10 {
        return None;
    }
    let value = part.iter().fold(0, |value, &digit| value * 10 + u64::from(digit - b'0'));
    (value <= u64::from(u32::MAX)).then_some(value)
}

/// A change (§9.1.4).
fn signed(part: &[u8]) -> Option<i64> {
    match part.strip_prefix(b"-") {
        None => number(part).map(|value| value as i64),
        Some(digits) => number(digits).filter(|&value| value != 0).map(|value| -(value as i64)),
    }
}

/// A target: its kind and its number (§9.1.2).
fn named(kind: &[u8], part: &[u8]) -> Option<Named> {
    match kind {
        b"role" => number(part).map(Named::Role),
        b"pass" => number(part).map(Named::Capability),
        _ => None,
    }
}

/// An answer as a line with its line feed (§9.2.1).
pub fn print(answer: &Answer) -> Vec<u8> {
    match answer {
        Ok(value) => format!("ok {value}\n").into_bytes(),
        Err(refusal) => format!("no {refusal}\n").into_bytes(),
    }
}

/// The line of a request, with its line feed. It parses to the same request
/// as long as no number is above 32 bits.
pub fn write(request: &Request) -> Vec<u8> {
    let mut copy = *request;
    let mut words: Vec<String> = vec![request.word().to_string()];
    words.extend(copy.arguments_mut().into_iter().map(|number| number.to_string()));
    match request {
        Request::Create(Creation { origin, .. }) => words.insert(2, kind(*origin)),
        Request::Open(Opening { on, .. }) => words.insert(3, kind(*on)),
        Request::Amend { change, .. } => words.push(change.to_string()),
        _ => (),
    }
    (words.join(" ") + "\n").into_bytes()
}

/// The word before the number.
fn kind(named: Named) -> String {
    match named {
        Named::Role(_) => "role".to_string(),
        Named::Capability(_) => "pass".to_string(),
    }
}

//! Random lines that fit a register, so that most of them are meaningful.

use crate::contexts::ARGUMENTS;
use reference::generate::{request, Profile};
use reference::random::Random;
use reference::{apply_trusted, lines, Register, Request};

/// All profiles of requests.
pub const PROFILES: [fn() -> Profile; 5] =
    [Profile::small, Profile::crowded, Profile::deep, Profile::wide, Profile::wild];

/// A line with a request for this register, in one of 12 cases damaged; of the
/// checks, one in 16 has another number of arguments.
pub fn line(random: &mut Random, register: &Register, profile: &Profile) -> Vec<u8> {
    let request = request(random, register, profile);
    let mut line = lines::write(&request);
    if matches!(request, Request::Check(_)) && random.chance(1, 16) {
        let count = random.pick(&ARGUMENTS);
        return with_arguments(&line, count);
    }
    if random.chance(1, 12) {
        damage(random, &mut line);
    }
    line
}

/// The line with so many arguments: the first of its own, or a 0 after them.
fn with_arguments(line: &[u8], count: usize) -> Vec<u8> {
    let content = line.strip_suffix(b"\n").unwrap_or(line);
    let parts = content.split(|&byte| byte == b' ').chain(std::iter::repeat(&b"0"[..]));
    let kept: Vec<&[u8]> = parts.take(1 + count).collect();
    [&kept.join(&b' ')[..], b"\n"].concat()
}

/// A byte of the line, which has one, replaced, taken out or put in.
pub fn damage(random: &mut Random, line: &mut Vec<u8>) {
    let at = random.below(line.len() as u64) as usize;
    let byte = random.pick(b" 0123456789-+\tabcdefopr\r\n\0");
    match random.below(3) {
        0 => line[at] = byte,
        1 => drop(line.remove(at)),
        _ => line.insert(at, byte),
    }
}

/// The request of a line with its line feed, if it has one.
pub fn request_of(line: &[u8]) -> Option<Request> {
    line.strip_suffix(b"\n").and_then(lines::parse)
}

/// The register follows the line, if that has a request.
pub fn follow(register: &mut Register, line: &[u8]) {
    if let Some(request) = request_of(line) {
        let _ = apply_trusted(register, &request);
    }
}

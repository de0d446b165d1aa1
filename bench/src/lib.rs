//! The independent implementation without the test of the rules before each
//! line, which the proved programs do not make either.

use reference::refusal::MALFORMED;
use reference::{apply_trusted, parse, Answer, Register};

/// The answer to one line with its line feed.
pub fn perform_trusted(register: &mut Register, line: &[u8]) -> Answer {
    let request = line.strip_suffix(b"\n").and_then(parse).ok_or(MALFORMED)?;
    apply_trusted(register, &request)
}

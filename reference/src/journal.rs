//! The journal (§10): lines in, lines out.

use crate::calls::apply;
use crate::lines::{parse, print};
use crate::refusal::{Answer, MALFORMED};
use crate::register::Register;

/// A longer input is not played (§10.1.4).
pub const LONGEST_INPUT: usize = 32_768;

/// What the program prints for an input: a journal from a fresh register
/// (§10.2.1).
pub fn run(input: &[u8]) -> Vec<u8> {
    run_from(Register::fresh(), input)
}

/// A journal from any register (§10.1).
pub fn run_from(mut register: Register, input: &[u8]) -> Vec<u8> {
    if input.len() > LONGEST_INPUT {
        return print(&Err(MALFORMED));
    }
    let mut output = Vec::new();
    for line in input.split_inclusive(|&byte| byte == b'\n') {
        output.extend(print(&perform(&mut register, line)));
    }
    output
}

/// The answer to one line with its line feed; 1 where that is missing (§10.1.3)
/// or the line yields no request (§10.1.2).
pub fn perform(register: &mut Register, line: &[u8]) -> Answer {
    let Some(content) = line.strip_suffix(b"\n") else {
        return Err(MALFORMED);
    };
    let Some(request) = parse(content) else {
        return Err(MALFORMED);
    };
    apply(register, &request)
}

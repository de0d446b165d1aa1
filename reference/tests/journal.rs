//! The journal: as a function and as a program.

mod common;

use common::{sample, LISTED, LISTING};
use reference::generate::{self, Profile};
use reference::journal::{run, run_from};
use reference::random::Random;
use reference::{apply, lines, print, Register};
use std::io::Write;
use std::process::{Command, Stdio};

/// What the program prints on this input.
fn program(input: &[u8]) -> Vec<u8> {
    let mut child = Command::new(env!("CARGO_BIN_EXE_journal"))
        .stdin(Stdio::piped())
        .stdout(Stdio::piped())
        .spawn()
        .expect("the program starts");
    let mut stdin = child.stdin.take().expect("it has an input");
    stdin.write_all(input).expect("it reads its input");
    drop(stdin);
    let output = child.wait_with_output().expect("it ends");
    assert!(output.status.success());
    output.stdout
}

/// The function and the program print this.
fn prints(input: &[u8], output: &[u8]) {
    assert!(run(input) == output, "the function on {} bytes", input.len());
    assert!(program(input) == output, "the program on {} bytes", input.len());
}

#[test]
fn the_program_prints_the_listing() {
    prints(LISTING.as_bytes(), LISTED.as_bytes());
}

#[test]
fn one_line_for_each_line() {
    prints(b"", b"");
    prints(b"\n", b"no 1\n");
    prints(b"\n\n", b"no 1\nno 1\n");
    prints(b"clock 5\n\nclock 4\n", b"ok 0\nno 1\nno 13\n");
    prints(b"clock 5\r\nclock 0\n", b"no 1\nok 0\n");
    prints(b"\0\n\xff\n", b"no 1\nno 1\n");
}

#[test]
fn a_last_line_without_a_line_feed_gets_1() {
    prints(b"clock 5", b"no 1\n");
    prints(b"clock 5\nclock 5", b"ok 0\nno 1\n");
    prints(b"clock 5\n ", b"ok 0\nno 1\n");
}

#[test]
fn malformed_lines_change_nothing() {
    prints(b"clock 5 \nclock 4\nclock 3\n", b"no 1\nok 0\nno 13\n");
}

#[test]
fn numbers_out_of_range_and_malformed_ones_differ() {
    prints(b"enrol 4294967295 0\nenrol 4294967296 0\n", b"no 2\nno 1\n");
    prints(b"enrol -1 0\namend 0 0 -65536\namend 0 0 -0\n", b"no 1\nno 2\nno 1\n");
    prints(b"save\nload\nsave 1\nload 1\n", b"no 1\nno 1\nno 1\nno 1\n");
}

#[test]
fn input_of_32768_bytes_is_played() {
    let mut input = b"clock 1\n".repeat(4_096);
    assert_eq!(input.len(), 32_768);
    prints(&input, &b"ok 0\n".repeat(4_096));
    input.push(b'\n');
    prints(&input, b"no 1\n");
    input.extend(vec![b'\n'; 100_000]);
    prints(&input, b"no 1\n");
}

#[test]
fn input_of_32768_bytes_without_its_last_line_feed() {
    let mut input = b"clock 1\n".repeat(4_096);
    input[32_767] = b'2';
    let mut output = b"ok 0\n".repeat(4_095);
    output.extend(b"no 1\n");
    prints(&input, &output);
    prints(&vec![b'a'; 32_768], b"no 1\n");
    prints(&vec![b'\n'; 32_768], &b"no 1\n".repeat(32_768));
}

#[test]
fn a_given_register_is_the_start() {
    let input = b"clock 9\nrevoke 0 0\nrevoke 0 0\nclock 11\n";
    assert_eq!(run_from(sample(), input), b"no 13\nok 3\nno 7\nok 0\n");
    assert_eq!(run(input), b"ok 0\nno 3\nno 3\nok 0\n");
}

/// Random lists as lines give the answers that they give as calls; what is
/// above 32 bits is malformed as a line.
#[test]
fn random_lists_as_lines_answer_as_calls() {
    let mut random = Random::new(40);
    let (mut accepted, mut answers) = (0, 0);
    for round in 0..40 {
        let start = match round % 2 {
            0 => Register::fresh(),
            _ => generate::register(&mut random),
        };
        let profile = [Profile::small(), Profile::wild(), Profile::wide()][round % 3].clone();
        let list = generate::requests(&mut random, &start, &profile, 700);
        let (mut input, mut expected) = (Vec::new(), Vec::new());
        let mut register = start.clone();
        for mut request in list {
            let large = request.arguments_mut().iter().any(|number| **number > u32::MAX.into());
            let answer = if large { Err(1) } else { apply(&mut register, &request) };
            input.extend(lines::write(&request));
            expected.extend(print(&answer));
            accepted += u32::from(answer.is_ok());
            answers += 1;
        }
        assert!(input.len() <= 32_768);
        assert_eq!(run_from(start, &input), expected);
    }
    assert!(accepted * 3 > answers, "{accepted} of {answers}");
}

//! The independent implementation's journal program without the test of the
//! rules before each line.

use bench::perform_trusted;
use reference::{print, Register};
use std::io::{self, Read, Write};

fn main() -> io::Result<()> {
    let mut input = Vec::new();
    io::stdin().lock().read_to_end(&mut input)?;
    let (mut register, mut output) = (Register::fresh(), Vec::new());
    for line in input.split_inclusive(|&byte| byte == b'\n') {
        output.extend(print(&perform_trusted(&mut register, line)));
    }
    io::stdout().lock().write_all(&output)
}

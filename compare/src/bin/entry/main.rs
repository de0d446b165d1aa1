//! Holds the proved C entry point to the independent one: the return value and
//! every byte of the area.
//!
//! usage: entry lists|images|entries. The last line is 'N passed, M failed';
//! each of the three says what counts once.

mod entries;
mod images;
mod library;
mod lists;
mod malformed;

use std::process::ExitCode;

fn main() -> ExitCode {
    let comparison = std::env::args().nth(1).unwrap_or_default();
    match comparison.as_str() {
        "lists" => lists::run(),
        "images" => images::run(),
        "entries" => entries::run(),
        _ => {
            eprintln!("usage: entry lists|images|entries");
            ExitCode::FAILURE
        }
    }
}

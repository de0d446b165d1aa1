//! Measures the proved entry point and the proved journal program beside the
//! independent implementation and SQLite. The script `run` starts it.
//!
//! usage: bench count | inputs FOLDER | tables FOLDER

mod cases;
mod clock;
mod contender;
mod entry;
mod journals;
mod library;
mod meter;
mod processes;
mod registers;
#[cfg_attr(not(feature = "sqlite"), path = "no_shop.rs")]
mod shop;
mod table;

use meter::Meter;
use std::path::PathBuf;

fn main() {
    let arguments: Vec<String> = std::env::args().skip(1).collect();
    let words: Vec<&str> = arguments.iter().map(String::as_str).collect();
    match words[..] {
        ["count"] => {
            entry::print_all(&mut Meter::Counting);
            library::print_all(&mut Meter::Counting);
        }
        ["inputs", folder] => {
            cases::write_all(&PathBuf::from(folder)).expect("a folder");
            journals::write_all(&PathBuf::from(folder)).expect("a folder");
        }
        ["tables", folder] => {
            let mut meter = Meter::Timing(PathBuf::from(folder), 0);
            let check = entry::print_all(&mut meter);
            library::print_all(&mut meter);
            processes::print_all(&PathBuf::from(folder), check);
        }
        _ => panic!("usage: bench count | inputs FOLDER | tables FOLDER"),
    }
}

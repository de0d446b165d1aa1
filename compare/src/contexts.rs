//! Demands on how many checks hang on the context that they name, and how many
//! lines have another number of arguments than a check takes.

use crate::tally::Tally;
use reference::generate::contexts::{Contexts, KINDS, PARTS, WHOLES};

/// The numbers of arguments that a check could be thought to take; the first is
/// what it took before it named a context.
pub const ARGUMENTS: [usize; 4] = [2, 3, 4, 6];

/// What the lines met.
#[derive(Default)]
pub struct Met {
    pub contexts: Contexts,
    arguments: [u64; ARGUMENTS.len()],
}

/// How often each number of a context must do each of [`KINDS`], in the order of
/// [`PARTS`]; how often a whole one must do what [`WHOLES`] says; and how often
/// checks must have each of [`ARGUMENTS`].
pub struct Least {
    pub parts: [[u64; KINDS.len()]; PARTS.len()],
    pub wholes: [u64; WHOLES.len()],
    pub arguments: [u64; ARGUMENTS.len()],
}

impl Least {
    /// So many times as often.
    pub fn times(&self, factor: u64) -> Least {
        Least {
            parts: self.parts.map(|row| row.map(|least| factor * least)),
            wholes: self.wholes.map(|least| factor * least),
            arguments: self.arguments.map(|least| factor * least),
        }
    }
}

impl Met {
    /// Counts the arguments of a line that has no request, if it is a check with
    /// another number of them, all of which are numbers.
    pub fn add_malformed(&mut self, line: &[u8]) {
        let Some(arguments) =
            line.strip_prefix(b"check ").and_then(|rest| rest.strip_suffix(b"\n"))
        else {
            return;
        };
        let parts: Vec<&[u8]> = arguments.split(|&byte| byte == b' ').collect();
        let digits = |part: &&[u8]| !part.is_empty() && part.iter().all(u8::is_ascii_digit);
        let place = ARGUMENTS.iter().position(|&count| count == parts.len());
        if let Some(place) = place.filter(|_| parts.iter().all(digits)) {
            self.arguments[place] += 1;
        }
    }

    /// Prints the counts, and makes a failure of each that is too small.
    pub fn require(&self, tally: &mut Tally, least: &Least) {
        println!("checks that hang on one number ({}):", PARTS.join(", "));
        for (kind, name) in KINDS.iter().enumerate() {
            let met = [0, 1, 2].map(|part| self.contexts.part(part)[kind]);
            println!("  {name}: {}, {}, {}", met[0], met[1], met[2]);
            for (part, number) in PARTS.iter().enumerate() {
                let what = format!("a check that hangs on the {number} alone: {name}");
                tally.require_often(met[part], least.parts[part][kind], &what);
            }
        }
        println!("checks that hang on a whole context:");
        for (place, name) in WHOLES.iter().enumerate() {
            let met = self.contexts.whole(place);
            println!("  {name}: {met}");
            tally.require_often(met, least.wholes[place], &format!("a check: {name}"));
        }
        println!("checks with another number of arguments:");
        for (place, count) in ARGUMENTS.iter().enumerate() {
            let met = self.arguments[place];
            println!("  {count}: {met}");
            tally.require_often(
                met,
                least.arguments[place],
                &format!("a check with {count} arguments"),
            );
        }
    }
}

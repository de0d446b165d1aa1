//! Demands on how many of the requests met the border of a life.

use crate::tally::Tally;
use reference::generate::borders::{Border, Borders, CALLS};

/// How often each of [`CALLS`] must meet each border, in the order of
/// [`Border::ALL`].
pub type Least = [[u64; CALLS.len()]; Border::ALL.len()];

/// Prints how often the borders were met, and makes a failure of each call that
/// met one less often than it must.
pub fn require(tally: &mut Tally, borders: &Borders, least: &Least) {
    println!("decided by a life alone ({}):", CALLS.join(", "));
    for (border, least) in Border::ALL.into_iter().zip(least) {
        let met = borders.met(border);
        println!("  {}: {}, {}, {}", border.name(), met[0], met[1], met[2]);
        for (place, call) in CALLS.iter().enumerate() {
            let what = format!("{call} {}", border.name());
            tally.require_often(met[place], least[place], &what);
        }
    }
}

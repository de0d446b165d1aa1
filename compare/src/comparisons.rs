//! Demands on how many pairs that were compared by same are nearly alike.

use crate::tally::Tally;
use reference::generate::comparisons::{Comparisons, BALANCED, DISREGARDED, PARTS};
use reference::register::COMPARED;

/// How often each number alone must decide, by the parts in which it differs, in
/// the order of [`COMPARED`] and [`PARTS`]; how often a difference must be passed
/// over, in the order of [`DISREGARDED`]; and how often numbers that differ must
/// add up to the same, in the order of [`BALANCED`].
pub struct Least {
    pub decided: [[u64; PARTS.len()]; COMPARED.len()],
    pub disregarded: [u64; DISREGARDED.len()],
    pub balanced: [u64; BALANCED.len()],
}

impl Least {
    /// So many times as often.
    pub fn times(&self, factor: u64) -> Least {
        Least {
            decided: self.decided.map(|row| row.map(|least| factor * least)),
            disregarded: self.disregarded.map(|least| factor * least),
            balanced: self.balanced.map(|least| factor * least),
        }
    }
}

/// Prints what the pairs differed in, and makes a failure of each difference that
/// was met less often than it must.
pub fn require(tally: &mut Tally, comparisons: &Comparisons, least: &Least) {
    println!("same decided by one number alone ({}):", PARTS.join(", "));
    for (place, number) in COMPARED.iter().enumerate() {
        let met = comparisons.decided(place);
        println!("  {number}: {}, {}, {}", met[0], met[1], met[2]);
        for (part, name) in PARTS.iter().enumerate() {
            let what = format!("same decided by the {number} alone, {name}");
            tally.require_often(met[part], least.decided[place][part], &what);
        }
    }
    println!("same in spite of a difference:");
    for (place, name) in DISREGARDED.iter().enumerate() {
        let met = comparisons.disregarded(place);
        println!("  {name}: {met}");
        let what = format!("same in spite of another {name}");
        tally.require_often(met, least.disregarded[place], &what);
    }
    println!("not the same in spite of one:");
    for (place, name) in BALANCED.iter().enumerate() {
        let met = comparisons.balanced(place);
        println!("  {name}: {met}");
        let what = format!("not the same in spite of one {name}");
        tally.require_often(met, least.balanced[place], &what);
    }
}

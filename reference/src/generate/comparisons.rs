//! How often a same hangs on one number alone, and how often it passes over a
//! difference, so that no comparison of programs passes for want of such pairs.

use crate::register::{Origin, Register, COMPARED};
use crate::request::Request;

/// What two capabilities may differ in and be the same.
pub const DISREGARDED: [&str; 10] = [
    "creator",
    "origin",
    "role at the end",
    "own permissions",
    "lent roles",
    "holders",
    "uses",
    "creations",
    "hops",
    "revoked mark",
];

/// What two capabilities that differ only there have in common and are not the
/// same.
pub const BALANCED: [&str; 3] =
    ["length of their lives", "sum of their limits", "number of bits in their masks"];

/// Where two numbers differ.
pub const PARTS: [&str; 3] = ["anywhere", "in the lowest byte alone", "in the highest byte alone"];

/// The widths of the numbers of [`COMPARED`] in bits; a domain fills no byte.
pub(super) const WIDTHS: [u32; COMPARED.len()] = [8, 32, 32, 32, 16, 16, 16, 24, 16, 16];

/// The counts.
#[derive(Clone, Debug, Default)]
pub struct Comparisons {
    decided: [[u64; PARTS.len()]; COMPARED.len()],
    disregarded: [u64; DISREGARDED.len()],
    balanced: [u64; BALANCED.len()],
}

impl Comparisons {
    /// Counts what the request, if it is a same of two capabilities that are
    /// there, hangs on or passes over.
    pub fn add(&mut self, register: &Register, request: &Request) {
        let Some([first, second]) = asked(register, request) else {
            return;
        };
        let numbers = [first, second].map(|number| register.compared(number));
        if let Some(place) = balanced(&numbers[0], &numbers[1]) {
            self.balanced[place] += 1;
        }
        match gap(&numbers[0], &numbers[1]) {
            Gap::None => self.add_same(register, first, second),
            Gap::At(place) => self.add_decided(place, numbers[0][place] ^ numbers[1][place]),
            Gap::Wider => (),
        }
    }

    fn add_same(&mut self, register: &Register, first: u8, second: u8) {
        let (first, second) = (disregarded(register, first), disregarded(register, second));
        differing(&first, &second).for_each(|place| self.disregarded[place] += 1);
    }

    /// Two capabilities differ in the number at this place alone, and there in
    /// these bits.
    fn add_decided(&mut self, place: usize, bits: u64) {
        let met = [true, bits & !0xff == 0, in_highest_byte(place, bits)];
        for (count, met) in self.decided[place].iter_mut().zip(met) {
            *count += u64::from(met);
        }
    }

    /// How often the number of [`COMPARED`] at this place alone made the answer
    /// 0, by the [`PARTS`] in which it differed.
    pub fn decided(&self, place: usize) -> [u64; PARTS.len()] {
        self.decided[place]
    }

    /// How often the answer was 1 though what [`DISREGARDED`] has at this place
    /// differed.
    pub fn disregarded(&self, place: usize) -> u64 {
        self.disregarded[place]
    }

    /// How often the answer was 0 though what [`BALANCED`] has at this place was
    /// equal, and so was all beside it.
    pub fn balanced(&self, place: usize) -> u64 {
        self.balanced[place]
    }
}

/// Whether these bits of the number at this place are all in its highest byte.
pub(super) fn in_highest_byte(place: usize, bits: u64) -> bool {
    bits & !(0xff << (WIDTHS[place] - 8)) == 0
}

/// The two capabilities which a same names, if they are there.
fn asked(register: &Register, request: &Request) -> Option<[u8; 2]> {
    let Request::Same { first, second } = *request else {
        return None;
    };
    let pair = [u8::try_from(first).ok()?, u8::try_from(second).ok()?];
    pair.iter().all(|&number| register.has_capability(number)).then_some(pair)
}

/// In what two capabilities differ of all that same compares.
pub enum Gap {
    None,
    /// In the number of [`COMPARED`] at this place alone.
    At(usize),
    /// In more than one number.
    Wider,
}

/// In what the two differ.
pub fn gap(first: &[u64; COMPARED.len()], second: &[u64; COMPARED.len()]) -> Gap {
    let mut places = differing(first, second);
    match (places.next(), places.next()) {
        (None, _) => Gap::None,
        (Some(place), None) => Gap::At(place),
        _ => Gap::Wider,
    }
}

/// The place in [`BALANCED`] of what is equal, if they differ in nothing else
/// than in their lives, limits or masks.
pub fn balanced(first: &[u64; COMPARED.len()], second: &[u64; COMPARED.len()]) -> Option<usize> {
    let equal = |from: usize, to: usize| first[from..to] == second[from..to];
    let length = |numbers: &[u64; COMPARED.len()]| numbers[3] - numbers[2];
    let sum = |numbers: &[u64; COMPARED.len()]| numbers[4..7].iter().sum::<u64>();
    let bits = |numbers: &[u64; COMPARED.len()]| [7, 8, 9].map(|at| numbers[at].count_ones());
    match [equal(0, 2), equal(2, 4), equal(4, 7), equal(7, 10)] {
        [true, false, true, true] if length(first) == length(second) => Some(0),
        [true, true, false, true] if sum(first) == sum(second) => Some(1),
        [true, true, true, false] if bits(first) == bits(second) => Some(2),
        _ => None,
    }
}

/// The places at which the numbers differ.
pub fn differing<'a, const N: usize>(
    first: &'a [u64; N],
    second: &'a [u64; N],
) -> impl Iterator<Item = usize> + 'a {
    (0..N).filter(|&place| first[place] != second[place])
}

/// What same passes over, in the order of [`DISREGARDED`].
pub fn disregarded(register: &Register, number: u8) -> [u64; DISREGARDED.len()] {
    let capability = register.capability(number);
    let origin = match capability.origin {
        Origin::Role(role) => u64::from(role),
        Origin::Capability(upper) => 0x100 + u64::from(upper),
    };
    [
        capability.creator.into(),
        origin,
        register.lineage(number).role.into(),
        capability.permissions.into(),
        capability.lent.into(),
        capability.holders,
        capability.uses.into(),
        capability.creations.into(),
        capability.hops.into(),
        capability.revoked.into(),
    ]
}

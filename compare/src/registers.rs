//! Random registers, of which only some are large: those take long.

use crate::requests::{follow, line};
use reference::generate::{register, Profile};
use reference::random::Random;
use reference::Register;

/// A register made by lines of the profile, or any that keeps the rules.
pub fn varied(random: &mut Random, profile: &Profile) -> Register {
    match random.chance(1, 2) {
        true => grown(random, profile),
        false => mostly_small(random),
    }
}

/// Any register that keeps the rules, seldom one with many passes.
fn mostly_small(random: &mut Random) -> Register {
    loop {
        let register = register(random);
        if register.count < 40 || random.chance(1, 16) {
            return register;
        }
    }
}

/// The register after some lines.
fn grown(random: &mut Random, profile: &Profile) -> Register {
    let mut register = Register::fresh();
    for _ in 0..random.below(600) {
        let line = line(random, &register, profile);
        follow(&mut register, &line);
    }
    register
}

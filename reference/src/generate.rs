//! Generators for tests and comparisons, all driven by a seeded
//! [`crate::random::Random`]: requests that are mostly meaningful, registers
//! that keep the rules, damage to registers and images, and images of few bytes;
//! and counts of the requests that meet the border of a life, compare
//! capabilities which are nearly alike, or hang on the context that they name.

pub mod borders;
mod checks;
pub mod comparisons;
pub mod contexts;
pub mod damage;
mod draw;
mod lives;
pub mod profile;
pub mod registers;
pub mod requests;
pub mod short;
mod twins;

pub use borders::{Border, Borders};
pub use comparisons::Comparisons;
pub use contexts::Contexts;
pub use damage::{damage_image, damage_register};
pub use profile::Profile;
pub use registers::register;
pub use requests::{request, requests};
pub use short::short_image;

/// Numbers at and around the edges of the ranges (§1.2.1, §1.2.2).
pub const BOUNDARIES: [u64; 30] = [
    0,
    1,
    2,
    7,
    8,
    15,
    16,
    23,
    24,
    31,
    32,
    63,
    64,
    65,
    127,
    128,
    254,
    255,
    256,
    257,
    65_534,
    65_535,
    65_536,
    16_777_215,
    16_777_216,
    2_147_483_648,
    4_294_967_294,
    4_294_967_295,
    4_294_967_296,
    u64::MAX,
];

//! Images of few bytes or none: the one without bytes, which is accepted, and
//! its neighbours, most of which are not.

use crate::image::SHORTEST;
use crate::random::Random;

/// No bytes; zero bytes, at most one more than a fresh register saves; any
/// single byte; or the first bytes of the image given, fewer than those of a
/// fresh register.
pub fn short_image(random: &mut Random, image: &[u8]) -> Vec<u8> {
    let length = random.between(1, SHORTEST as u64 - 1) as usize;
    match random.below(8) {
        0 | 1 => Vec::new(),
        2..=4 => vec![0; length],
        5 => vec![0; SHORTEST + random.below(2) as usize],
        6 => vec![random.bits() as u8],
        _ => image[..length.min(image.len())].to_vec(),
    }
}

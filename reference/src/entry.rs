//! The entry point for the payroll package (§11).

use crate::image::{encode, load};
use crate::journal::perform;
use crate::refusal::{refuse_if, Answer, BUFFER_TOO_SHORT};

/// The bytes before the new image, which are its length (§11.2.2).
const PREFIX: usize = 2;

/// Plays one line on the register of the image and writes the new image into
/// the buffer (§11.1.1, §11.2.2): a value, or minus the number of a refusal.
pub fn apply(image: &[u8], line: &[u8], buffer: &mut [u8]) -> i64 {
    match answer(image, line, buffer) {
        Ok(value) => value as i64,
        Err(refusal) => -i64::from(refusal),
    }
}

/// The order of §11.2.1. A second line feed is no part of any request, so such
/// a line gets 1 too (§11.1.3).
fn answer(image: &[u8], line: &[u8], buffer: &mut [u8]) -> Answer {
    let mut register = load(image)?;
    let value = perform(&mut register, line)?;
    let image = encode(&register);
    let length = u16::try_from(image.len()).map_err(|_| BUFFER_TOO_SHORT)?;
    refuse_if(buffer.len() < image.len() + PREFIX, BUFFER_TOO_SHORT)?;
    buffer[..PREFIX].copy_from_slice(&length.to_be_bytes());
    buffer[PREFIX..PREFIX + image.len()].copy_from_slice(&image);
    Ok(value)
}

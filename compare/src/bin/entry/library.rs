//! The entry point of the static library, asked beside the independent one.

use compare::tally::Tally;
use reference::entry;
use reference::random::Random;
use std::fmt::Write;
use std::ptr::null;

/// An area of this length has room for every image, and for more.
pub const ROOMY: usize = 13_500;
/// No area is longer.
pub const LARGEST: usize = 65_536;
/// Bytes before and after each area; they are compared too.
const MARGIN: usize = 64;
/// The areas are filled from so many places of the filling in turn.
const SHIFTS: usize = 251;

#[link(name = "fellunqa", kind = "static")]
extern "C" {
    fn fellunqa_apply(
        image: *const u8,
        image_len: usize,
        line: *const u8,
        line_len: usize,
        area: *mut u8,
        area_len: usize,
    ) -> i64;
}

/// The answer on the image of this length at `from`.
fn apply(from: *const u8, length: usize, line: &[u8], area: &mut [u8]) -> i64 {
    let (to, room) = (area.as_mut_ptr(), area.len());
    // Each pointer goes with the length of what it points to, a null pointer
    // with the length 0, and nobody else has the area.
    unsafe { fellunqa_apply(from, length, line.as_ptr(), line.len(), to, room) }
}

/// The areas of both entry points, with their margins.
pub struct Areas {
    filling: Vec<u8>,
    shift: usize,
    proved: Vec<u8>,
    expected: Vec<u8>,
    /// Images without bytes that were at a null pointer.
    at_null: u64,
    /// Images without bytes that were in front of other bytes.
    at_bytes: u64,
}

impl Areas {
    pub fn new() -> Areas {
        let mut random = Random::new(0);
        let length = SHIFTS + LARGEST + 2 * MARGIN;
        let filling = (0..length).map(|_| random.bits() as u8).collect();
        let (proved, expected) = (Vec::new(), Vec::new());
        Areas { filling, shift: 0, proved, expected, at_null: 0, at_bytes: 0 }
    }

    /// The answer of both to a call with an area of this length; or, if the
    /// answers or any bytes differ, what is needed to make the call again.
    pub fn ask(&mut self, image: &[u8], line: &[u8], length: usize) -> Result<i64, String> {
        self.fill(length + 2 * MARGIN);
        let area = MARGIN..MARGIN + length;
        let from = self.place(image);
        let answer = apply(from, image.len(), line, &mut self.proved[area.clone()]);
        let expected = entry::apply(image, line, &mut self.expected[area]);
        if answer == expected && self.proved == self.expected {
            return Ok(answer);
        }
        let areas = self.difference();
        let (line, image) = (line.escape_ascii(), hex(image));
        let at = if from.is_null() { " at a null pointer" } else { "" };
        Err(format!(
            "answer {answer}, expected {expected}; {areas}; \
             area of {length} bytes, line \"{line}\", image \"{image}\"{at}"
        ))
    }

    /// Where the proved entry point finds the image. One without bytes is at a
    /// null pointer and in front of other bytes in turn.
    fn place(&mut self, image: &[u8]) -> *const u8 {
        if !image.is_empty() {
            return image.as_ptr();
        }
        if self.at_null > self.at_bytes {
            self.at_bytes += 1;
            return self.filling.as_ptr();
        }
        self.at_null += 1;
        null()
    }

    /// Prints where the images without bytes were, and makes a failure of each
    /// of the two places that had fewer than it must.
    pub fn require_places(&self, tally: &mut Tally, least: u64) {
        let Areas { at_null, at_bytes, .. } = *self;
        println!("images without bytes: {at_null} at a null pointer, {at_bytes} at other bytes");
        tally.require_often(at_null, least, "an image without bytes at a null pointer");
        tally.require_often(at_bytes, least, "an image without bytes in front of others");
    }

    /// Fills both areas alike, and otherwise than before.
    fn fill(&mut self, length: usize) {
        self.shift = (self.shift + 1) % SHIFTS;
        for area in [&mut self.proved, &mut self.expected] {
            area.clear();
            area.extend_from_slice(&self.filling[self.shift..self.shift + length]);
        }
    }

    /// Where the areas differ first, counted from the start of the area.
    fn difference(&self) -> String {
        let mut bytes = self.proved.iter().zip(&self.expected);
        match bytes.position(|(proved, expected)| proved != expected) {
            Some(at) => format!("the areas differ from byte {} on", at as i64 - MARGIN as i64),
            None => "the areas are equal".to_string(),
        }
    }

    /// The image that the last call left, which was accepted.
    pub fn image(&self) -> &[u8] {
        let area = &self.proved[MARGIN..];
        let length = u16::from_be_bytes([area[0], area[1]]);
        &area[2..2 + usize::from(length)]
    }
}

fn hex(bytes: &[u8]) -> String {
    let mut hex = String::new();
    for byte in bytes {
        write!(hex, "{byte:02x}").expect("a string takes all");
    }
    hex
}

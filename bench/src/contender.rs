//! What is measured beside each other: implementations of one call.

use crate::cases::Case;
use bench::perform_trusted;
use reference::{encode, entry, load};
use std::hint::black_box;

/// An area of this length has room for every image.
const ROOM: usize = 13_404;

/// One way to make a call, as often as wanted.
pub trait Contender {
    fn call(&mut self) -> i64;
    /// Takes back what the call left, where it left anything.
    fn undo(&mut self) {}
    /// Whether every call is to be taken back.
    fn leaves_a_change(&self) -> bool {
        false
    }
}

#[link(name = "fellunqa", kind = "static")]
extern "C" {
    fn fellunqa_apply(
        image: *const u8,
        image_len: usize,
        line: *const u8,
        line_len: usize,
        area: *mut u8,
        area_len: usize,
    ) -> i64;
}

/// Image and line of a case, and an area.
pub struct Call {
    image: Vec<u8>,
    line: Vec<u8>,
    area: Vec<u8>,
}

impl Call {
    pub fn new(case: &Case) -> Call {
        Call { image: case.image.clone(), line: case.line.clone(), area: vec![0; ROOM] }
    }
}

/// The proved entry point.
pub struct Proved(pub Call);

impl Contender for Proved {
    fn call(&mut self) -> i64 {
        let Call { image, line, area } = &mut self.0;
        let (to, room) = (area.as_mut_ptr(), area.len());
        // Each pointer goes with the length of what it points to, and nobody
        // else has the area.
        unsafe { fellunqa_apply(image.as_ptr(), image.len(), line.as_ptr(), line.len(), to, room) }
    }
}

/// The independent implementation's entry point.
pub struct Independent(pub Call);

impl Contender for Independent {
    fn call(&mut self) -> i64 {
        let Call { image, line, area } = &mut self.0;
        entry::apply(black_box(image), black_box(line), area)
    }
}

/// The same, but with the rules tested once, by the load, and not a second
/// time before the call: so does the proved entry point, too.
pub struct TestedOnce(pub Call);

impl TestedOnce {
    fn answer(&mut self) -> Result<u64, u8> {
        let Call { image, line, area } = &mut self.0;
        let mut register = load(black_box(image))?;
        let value = perform_trusted(&mut register, black_box(line))?;
        let image = encode(&register);
        area[..2].copy_from_slice(&(image.len() as u16).to_be_bytes());
        area[2..2 + image.len()].copy_from_slice(&image);
        Ok(value)
    }
}

impl Contender for TestedOnce {
    fn call(&mut self) -> i64 {
        match self.answer() {
            Ok(value) => value as i64,
            Err(refusal) => -i64::from(refusal),
        }
    }
}

/// The independent implementation's load by itself.
pub struct Load(pub Call);

impl Contender for Load {
    fn call(&mut self) -> i64 {
        i64::from(black_box(load(black_box(&self.0.image))).is_ok())
    }
}

/// A plain copy of the image: less cannot be done.
pub struct Copy(pub Call);

impl Contender for Copy {
    fn call(&mut self) -> i64 {
        let Call { image, area, .. } = &mut self.0;
        area[..image.len()].copy_from_slice(black_box(image));
        black_box(area);
        0
    }
}

/// A call by itself, so that the instruction counter finds it by its name.
#[no_mangle]
#[inline(never)]
pub fn measured_call(contender: &mut dyn Contender) -> i64 {
    contender.call()
}

//! The independent implementation as the C harness calls it, and the mutator.

pub mod input;
pub mod mutate;

use input::Input;
use reference::random::Random;
use reference::{encode, entry, journal, load};
use std::slice;

/// The bytes, or none if the length is 0.
///
/// # Safety
/// There are so many bytes at the pointer.
unsafe fn bytes<'a>(at: *const u8, length: usize) -> &'a [u8] {
    match length {
        0 => &[],
        _ => slice::from_raw_parts(at, length),
    }
}

/// The independent entry point.
///
/// # Safety
/// As for `fellunqa_apply`.
#[no_mangle]
pub unsafe extern "C" fn reference_apply(
    image: *const u8,
    image_len: usize,
    line: *const u8,
    line_len: usize,
    area: *mut u8,
    area_len: usize,
) -> i64 {
    let area = match area_len {
        0 => &mut [],
        _ => slice::from_raw_parts_mut(area, area_len),
    };
    entry::apply(bytes(image, image_len), bytes(line, line_len), area)
}

/// The length of an area that is just enough for the image after the line, or
/// for the image before it, if the line or the image is refused.
///
/// # Safety
/// As for `fellunqa_apply`.
#[no_mangle]
pub unsafe extern "C" fn reference_room(
    image: *const u8,
    image_len: usize,
    line: *const u8,
    line_len: usize,
) -> usize {
    let Ok(mut register) = load(bytes(image, image_len)) else {
        return image_len + 2;
    };
    match journal::perform(&mut register, bytes(line, line_len)) {
        Ok(_) => encode(&register).len() + 2,
        Err(_) => image_len + 2,
    }
}

/// Changes an input and returns its new size. It stays as it is if it would
/// get too large.
///
/// # Safety
/// At `data` there is room for `max` bytes, of which `size` are the input.
#[no_mangle]
pub unsafe extern "C" fn reference_mutate(
    data: *mut u8,
    size: usize,
    max: usize,
    seed: u64,
) -> usize {
    let mut input = Input::read(bytes(data, size));
    mutate::mutate(&mut Random::new(seed), &mut input);
    let changed = input.write();
    if changed.len() > max {
        return size;
    }
    slice::from_raw_parts_mut(data, changed.len()).copy_from_slice(&changed);
    changed.len()
}

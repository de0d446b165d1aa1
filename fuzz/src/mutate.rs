//! Changes that know the format: most leave an image that is accepted and a
//! line that fits it.

use crate::input::{Input, EXACT, JUST};
use reference::generate::{self, damage_image, damage_register, request, Profile, BOUNDARIES};
use reference::random::Random;
use reference::{apply_trusted, encode, journal, lines, load, Register};

const PROFILES: [fn() -> Profile; 5] =
    [Profile::small, Profile::crowded, Profile::deep, Profile::wide, Profile::wild];

/// So many lines are played at most in one change.
const STEPS: u64 = 40;

/// One change, or a few; an image that is refused mostly makes way for a good
/// one first.
pub fn mutate(random: &mut Random, input: &mut Input) {
    if load(&input.image).is_err() && random.chance(7, 8) {
        input.image = match random.chance(1, 8) {
            true => encode(&any_register(random)),
            false => encode(&Register::fresh()),
        };
    }
    for _ in 0..random.pick(&[1, 1, 1, 2, 3]) {
        change(random, input);
    }
}

fn change(random: &mut Random, input: &mut Input) {
    match random.below(16) {
        0 => area(random, input),
        1 => damage_image(random, &mut input.image),
        2 => {
            let mut register = register(input);
            damage_register(random, &mut register);
            input.image = encode(&register);
        }
        3 => damage_line(random, &mut input.line),
        4 | 5 => replace_number(random, &mut input.line),
        6..=8 => follow(input),
        9 => play(random, input),
        10 => {
            input.image = encode(&any_register(random));
            input.line = fitting(random, &register(input));
        }
        _ => input.line = fitting(random, &register(input)),
    }
}

/// The register of the image; a fresh one if the image is refused.
fn register(input: &Input) -> Register {
    load(&input.image).unwrap_or_else(|_| Register::fresh())
}

/// A line with a request for the register.
fn fitting(random: &mut Random, register: &Register) -> Vec<u8> {
    let profile = random.pick(&PROFILES)();
    lines::write(&request(random, register, &profile))
}

/// The image becomes that after the line.
fn follow(input: &mut Input) {
    let mut register = register(input);
    if journal::perform(&mut register, &input.line).is_ok() {
        input.image = encode(&register);
    }
}

/// The image becomes that after some lines.
fn play(random: &mut Random, input: &mut Input) {
    let mut register = register(input);
    let profile = random.pick(&PROFILES)();
    for _ in 0..random.between(1, STEPS) {
        let next = request(random, &register, &profile);
        let _ = apply_trusted(&mut register, &next);
    }
    input.image = encode(&register);
    input.line = fitting(random, &register);
}

/// Any register that keeps the rules, seldom a large one.
fn any_register(random: &mut Random) -> Register {
    loop {
        let register = generate::register(random);
        if register.count < 20 || random.chance(1, 16) {
            return register;
        }
    }
}

/// Another length of the area: often about what is needed.
fn area(random: &mut Random, input: &mut Input) {
    input.mode = random.bits() as u8;
    input.value = random.bits() as u8;
    if random.chance(1, 2) {
        input.mode = input.mode & !3 | EXACT;
        input.value = random.between(u64::from(JUST) - 2, u64::from(JUST) + 2) as u8;
    }
}

/// One byte of the line replaced, taken out or put in, or one put at its end.
fn damage_line(random: &mut Random, line: &mut Vec<u8>) {
    let at = random.below(line.len() as u64) as usize;
    let byte = random.pick(b" 0123456789-+\tabcdefopr\r\n\0\xff");
    match random.below(4) {
        0 if !line.is_empty() => line[at] = byte,
        1 if !line.is_empty() => drop(line.remove(at)),
        2 => line.push(byte),
        _ => line.insert(at, byte),
    }
}

/// One part between spaces becomes a number at the edge of a range.
fn replace_number(random: &mut Random, line: &mut Vec<u8>) {
    let content = line.strip_suffix(b"\n").unwrap_or(line);
    let mut parts: Vec<Vec<u8>> = content.split(|&byte| byte == b' ').map(<[u8]>::to_vec).collect();
    let at = random.below(parts.len() as u64) as usize;
    let number = match random.below(3) {
        0 => random.below(70),
        _ => random.pick(&BOUNDARIES),
    };
    parts[at] = number.to_string().into_bytes();
    *line = [parts.join(&b' '), b"\n".to_vec()].concat();
}

//! Malformed lines, each made from a line that fits. What is made may happen
//! to have a request after all: the independent implementation says so.

use compare::requests::damage;
use reference::random::Random;
use reference::request::WORDS;

/// A line that is malformed in one of many ways.
pub fn malformed(random: &mut Random, line: &[u8]) -> Vec<u8> {
    let content = line.strip_suffix(b"\n").unwrap_or(line);
    match random.below(64) {
        0 => vec![random.pick(b"a 0\n"); random.pick(&[32_769, 65_536, 70_000])],
        1 => (0..random.below(60)).map(|_| random.bits() as u8).collect(),
        2..=23 => framed(random, content),
        _ => {
            let mut parts: Vec<Vec<u8>> =
                content.split(|&byte| byte == b' ').map(<[u8]>::to_vec).collect();
            match random.chance(1, 2) {
                true => change_part(random, &mut parts),
                false => change_parts(random, &mut parts),
            }
            [parts.join(&b' '), b"\n".to_vec()].concat()
        }
    }
}

/// Other bytes than one line with its line feed.
fn framed(random: &mut Random, content: &[u8]) -> Vec<u8> {
    let any = [random.bits() as u8];
    let parts: &[&[u8]] = match random.below(12) {
        0 => &[],
        1 => &[b"\n"],
        2 => &[content],
        3 => &[content, b"\n\n"],
        4 => &[content, b"\n", content, b"\n"],
        5 => &[content, b"\n", content],
        6 => &[b"\n", content, b"\n"],
        7 => &[content, b"\n", &any],
        8 => &[content, b"\r\n"],
        9 => &[content, b"\0\n"],
        10 => &[content, &any, b"\n"],
        _ => &[&any, content, b"\n"],
    };
    parts.concat()
}

/// Changes one part between spaces: a word or a number.
fn change_part(random: &mut Random, parts: &mut [Vec<u8>]) {
    let at = random.below(parts.len() as u64) as usize;
    let part = &mut parts[at];
    match random.below(9) {
        0 => part.insert(0, b'0'),
        1 => part.insert(0, b'+'),
        2 => part.insert(0, b'-'),
        3 => *part = random.pick(&["-0", "00", "-00", "--1", "1a", "0x1", "", "-"]).into(),
        4 => *part = too_large(random, part),
        5 => part.push(random.pick(b"0a\t\r\0\xff")),
        6 => drop(part.pop()),
        7 => part.make_ascii_uppercase(),
        _ if !part.is_empty() => damage(random, part),
        _ => (),
    }
}

/// The number, if it is one, with 33 bits or more, some of which wrap to it.
fn too_large(random: &mut Random, part: &[u8]) -> Vec<u8> {
    let number = String::from_utf8_lossy(part).parse().unwrap_or(0_u128);
    let larger = match random.below(5) {
        0 => 1 << 32,
        1 => number + (1 << 32),
        2 => number + (1 << 64),
        3 => number + (1 << 96),
        _ => number + 10_000_000_000,
    };
    larger.to_string().into_bytes()
}

/// Changes which parts there are and in which order.
fn change_parts(random: &mut Random, parts: &mut Vec<Vec<u8>>) {
    let length = parts.len() as u64;
    let at = random.below(length) as usize;
    match random.below(8) {
        0 => drop(parts.remove(at)),
        1 => parts.insert(at, b"7".to_vec()),
        2 => parts.insert(at, Vec::new()),
        3 => parts.push(Vec::new()),
        4 => parts.swap(at, random.below(length) as usize),
        5 => parts[0] = random.pick(&WORDS).into(),
        6 => parts[0] = random.pick(&["save", "load", "role", "pass", "tick", ""]).into(),
        _ => parts[at] = random.pick(&["role", "pass", "rol", "passe", "Role", "1"]).into(),
    }
}

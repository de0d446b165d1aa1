//! The entry point: order of refusals, and what is written where.

mod common;

use common::{accept_all, after, longest_chain, sample};
use reference::generate::{self, Profile};
use reference::random::Random;
use reference::{apply, encode, entry, lines, load, Register, Request};

/// The answer on a buffer of so many bytes; on refusal no byte is touched, on
/// acceptance none after the image.
fn answer(image: &[u8], line: &[u8], length: usize) -> (i64, Vec<u8>) {
    let mut buffer: Vec<u8> = (0..length).map(|place| place as u8 ^ 0x5a).collect();
    let before = buffer.clone();
    let answer = entry::apply(image, line, &mut buffer);
    if answer < 0 {
        assert_eq!(buffer, before, "touched by a refusal");
        return (answer, Vec::new());
    }
    let written = usize::from(u16::from_be_bytes([buffer[0], buffer[1]]));
    assert_eq!(buffer[2 + written..], before[2 + written..], "touched after the image");
    (answer, buffer[2..2 + written].to_vec())
}

fn refuses(image: &[u8], line: &[u8], length: usize, number: i64) {
    assert_eq!(answer(image, line, length).0, -number, "{:?}", String::from_utf8_lossy(line));
}

/// The image after the line, which must be accepted with the value.
fn accepts(image: &[u8], line: &[u8], length: usize, value: i64) -> Vec<u8> {
    let (answered, image) = answer(image, line, length);
    assert_eq!(answered, value, "{:?}", String::from_utf8_lossy(line));
    image
}

#[test]
fn refusals_come_in_their_order() {
    let image = encode(&sample());
    let cut = &image[..image.len() - 1];
    // All apply: a bad image, a malformed line, no buffer.
    refuses(cut, b"clock x\n", 0, 14);
    refuses(cut, b"clock 9\n", 0, 14);
    refuses(cut, b"clock 10\n", 0, 14);
    refuses(&image, b"clock x\n", 0, 1);
    refuses(&image, b"clock 9\n", 0, 13);
    refuses(&image, b"clock 10\n", 0, 16);
    refuses(&image, b"clock 10\n", image.len() + 1, 16);
    assert_eq!(accepts(&image, b"clock 10\n", image.len() + 2, 0), image);
    refuses(&[0; 1], b"clock 10\n", 14_000, 14);
    refuses(&[0; 25], b"clock 10\n", 14_000, 14);
    refuses(&[0; 27], b"clock 10\n", 14_000, 14);
}

/// A register that breaks a rule is a bad image here: 14 and never 15.
#[test]
fn a_broken_image_gives_14() {
    let mut register = sample();
    register.capabilities[0].hops += 1;
    refuses(&encode(&register), b"clock 10\n", 14_000, 14);
    refuses(&encode(&register), b"\n", 14_000, 14);
}

#[test]
fn any_other_bytes_than_one_line_get_1() {
    let image = [0; 26];
    let cases: [&[u8]; 14] = [
        b"",
        b"\n",
        b"\n\n",
        b"clock 10",
        b"clock 10\n\n",
        b"\nclock 10\n",
        b"clock 10\nclock 11\n",
        b"clock 10\nclock 11",
        b"clock 10\n ",
        b"clock 10\r\n",
        b"clock 10\0\n",
        b"clock 10\n\0",
        b" clock 10\n",
        b"load 1\n",
    ];
    for line in cases {
        refuses(&image, line, 14_000, 1);
    }
    accepts(&image, b"clock 10\n", 14_000, 0);
    refuses(&image, &[b'a'; 40_000], 14_000, 1);
    refuses(&image, &[b'\n'; 40_000], 14_000, 1);
}

#[test]
fn calls_that_change_nothing_need_the_buffer_too() {
    let mut register = sample();
    accept_all(&mut register, &["open 0 0 role 0 9 0 0"]);
    let image = encode(&register);
    for (line, value) in
        [(&b"check 0 4 9 0 0\n"[..], 1), (b"check 0 9 9 0 0\n", 0), (b"same 0 0\n", 1)]
    {
        refuses(&image, line, image.len() + 1, 16);
        assert_eq!(accepts(&image, line, image.len() + 2, value), image);
        assert_eq!(accepts(&image, line, image.len() + 99, value), image);
    }
}

/// The buffer is measured by the new image, not by the old one.
#[test]
fn the_new_image_is_measured() {
    refuses(&[0; 26], b"enrol 0 0\n", 28, 16);
    let longer = accepts(&[0; 26], b"enrol 0 0\n", 29, 0);
    assert_eq!(longer.len(), 27);
    let mut register = sample();
    accept_all(&mut register, &["open 0 0 role 0 9 0 0"]);
    let image = encode(&register);
    let shorter = accepts(&image, b"close 0\n", image.len() - 4, 0);
    assert_eq!(shorter.len(), image.len() - 6);
    refuses(&image, b"close 0\n", image.len() - 5, 16);
}

#[test]
fn large_values_come_back_as_they_are() {
    let mut register = after(&["enrol 0 0", "found 0 0 1 1 1", "appoint 0 0"]);
    for permission in 0..32 {
        accept_all(&mut register, &[&format!("grant 0 {permission}")]);
    }
    accept_all(&mut register, &["create 0 role 0 0 0 0 0 0 0 0 0 0 0 0"]);
    let image = encode(&register);
    accepts(&image, b"allow 0 0 4294967295\n", 14_000, 4_294_967_295);
    accepts(&image, b"allow 0 0 2147483648\n", 14_000, 2_147_483_648);
}

#[test]
fn the_longest_image_goes_through() {
    let image = encode(&longest_chain());
    assert_eq!(image.len(), 13_400);
    refuses(&image, b"revoke 63 0\n", 13_401, 16);
    let revoked = accepts(&image, b"revoke 63 0\n", 13_402, 256);
    assert_eq!(revoked.len(), 13_400);
    refuses(&revoked, b"revoke 63 0\n", 13_402, 7);
    let closed = accepts(&revoked, b"close 0\n", 13_396, 0);
    assert_eq!(closed.len(), 13_394);
}

/// Random lists through the entry point answer as calls do, and the image is
/// that of the register, accepted or not.
#[test]
fn random_lists_answer_as_calls() {
    let mut random = Random::new(50);
    let (mut accepted, mut refused) = (0, 0);
    for round in 0..30 {
        let mut register = match round % 2 {
            0 => Register::fresh(),
            _ => generate::register(&mut random),
        };
        let profile = [Profile::small(), Profile::crowded(), Profile::wide()][round % 3].clone();
        let mut image = encode(&register);
        for _ in 0..500 {
            let request = generate::request(&mut random, &register, &profile);
            let answer = compare(&mut register, &mut image, request);
            accepted += u32::from(answer >= 0);
            refused += u32::from(answer < -1);
        }
    }
    assert!(accepted > 5_000 && refused > 2_000, "{accepted}, {refused}");
}

/// Asks the register and the entry point, whose answers and images must be
/// equal; a number above 32 bits gets 1 as a line.
fn compare(register: &mut Register, image: &mut Vec<u8>, mut request: Request) -> i64 {
    let (answered, new) = answer(image, &lines::write(&request), 13_404);
    if request.arguments_mut().iter().any(|number| **number > u32::MAX.into()) {
        assert_eq!(answered, -1);
        return answered;
    }
    match apply(register, &request) {
        Ok(value) => {
            assert_eq!(answered, value as i64);
            assert_eq!(new, encode(register));
            *image = new;
        }
        Err(number) => assert_eq!(answered, -i64::from(number)),
    }
    assert_eq!(load(image).as_ref(), Ok(&*register));
    answered
}

/// Lines with what a fresh register answers if there is room, and the length of
/// its new image.
const ON_FRESH: [(&[u8], i64, usize); 16] = [
    (b"clock 0\n", 0, 26),
    (b"clock 7\n", 0, 26),
    (b"clock 4294967295\n", 0, 26),
    (b"enrol 63 7\n", 0, 27),
    (b"found 31 7 0 65535 1\n", 0, 46),
    (b"enrol 64 0\n", -2, 26),
    (b"check 0 32 9 0 0\n", -2, 26),
    (b"check 0 0 9 0 0\n", -3, 26),
    (b"grant 0 0\n", -3, 26),
    (b"revoke 0 0\n", -3, 26),
    (b"same 0 0\n", -3, 26),
    (b"", -1, 26),
    (b"\n", -1, 26),
    (b"clock 7", -1, 26),
    (b"clock 07\n", -1, 26),
    (b"clock 7\nclock 7\n", -1, 26),
];

/// With every room: 16 comes last, and nothing is written with a refusal.
#[test]
fn no_bytes_answer_as_26_zero_bytes() {
    for (line, value, length) in ON_FRESH {
        for room in (0..=80).chain([13_402, 13_404, 65_536]) {
            let expected = if value == 0 && room < length + 2 { -16 } else { value };
            let (answered, image) = answer(&[], line, room);
            assert_eq!(answered, expected, "{:?} in {room}", String::from_utf8_lossy(line));
            assert_eq!(image.len(), if answered == 0 { length } else { 0 });
            assert_eq!((answered, image), answer(&[0; 26], line, room));
        }
    }
    let clock = [&[0, 0, 0, 7][..], &[0; 22]].concat();
    assert_eq!(accepts(&[], b"clock 7\n", 28, 0), clock);
    assert_eq!(accepts(&[], b"clock 0\n", 28, 0), [0; 26]);
}

#[test]
fn random_lines_on_no_bytes_answer_as_on_26_zero_bytes() {
    let mut random = Random::new(51);
    let (mut accepted, mut own, mut malformed, mut short) = (0, 0, 0, 0);
    for _ in 0..4_000 {
        let line =
            lines::write(&generate::request(&mut random, &Register::fresh(), &Profile::wild()));
        let line = &line[..line.len() - usize::from(random.chance(1, 8))];
        let room = random.below(80) as usize;
        let given = answer(&[], line, room);
        assert_eq!(given, answer(&[0; 26], line, room));
        match given.0 {
            0.. => accepted += 1,
            -1 => malformed += 1,
            -16 => short += 1,
            _ => own += 1,
        }
    }
    let met = [accepted, own, malformed, short];
    assert!(met.iter().all(|&count| count > 200), "{met:?}");
}

/// The image has no bytes until a line is accepted; from then on it is the one
/// that a chain from 26 zero bytes has.
#[test]
fn chains_begin_with_no_bytes() {
    let mut random = Random::new(52);
    let (mut at_once, mut later) = (0, 0);
    for round in 0..200 {
        let profile = [Profile::small(), Profile::wide(), Profile::wild()][round % 3].clone();
        let (mut register, mut image) = (Register::fresh(), Vec::new());
        let mut first = None;
        for call in 0..40 {
            let request = generate::request(&mut random, &register, &profile);
            if compare(&mut register, &mut image, request) >= 0 {
                first = first.or(Some(call));
            }
            assert_eq!(image.is_empty(), first.is_none());
        }
        at_once += u32::from(first == Some(0));
        later += u32::from(first > Some(0));
    }
    assert!(at_once > 20 && later > 20, "{at_once}, {later}");
}

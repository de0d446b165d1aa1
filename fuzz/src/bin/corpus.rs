//! Writes the corpus into a folder: usage: corpus FOLDER. All is seeded, so
//! that the same files come out everywhere.

use fuzz::input::{Input, ANY, EXACT, JUST, LARGEST, NULL, SHORT};
use reference::generate::{damage_image, request, requests, Profile};
use reference::random::Random;
use reference::request::WORDS;
use reference::{apply_trusted, encode, lines, Inquiry, Register, Request};
use std::path::Path;
use std::{env, fs, io};

/// Lines that make the small register.
const LINES: usize = 150;
const DAMAGED: usize = 10;
const MALFORMED: [&str; 14] = [
    "",
    "\n",
    "clock 7",
    "clock 7\n\n",
    "clock 7\n0",
    "clock  7\n",
    "clock 7 \n",
    " clock 7\n",
    "clock 07\n",
    "clock 4294967296\n",
    "amend 0 0 -0\n",
    "open 0 0 rol 0 0 0 0\n",
    "check 0 0\n",
    "check 0 0 0 0 0 0\n",
];
/// Modes and values for areas.
const AREAS: [(u8, u8); 8] = [
    (EXACT, JUST - 1),
    (EXACT, JUST + 1),
    (SHORT | NULL, 0),
    (SHORT, 1),
    (SHORT, 2),
    (LARGEST, JUST - 1),
    (LARGEST, JUST),
    (ANY, 255),
];

/// Modes, values and lines for an image without bytes.
const WITHOUT_BYTES: [(u8, u8, &str); 4] = [
    (EXACT, JUST, "enrol 3 0\n"),
    (EXACT | NULL, JUST, "enrol 3 0\n"),
    (EXACT | NULL, JUST - 1, "clock 7\n"),
    (EXACT | NULL, JUST, "check 0 0 9 0 0\n"),
];

fn main() -> io::Result<()> {
    let folder = env::args().nth(1).expect("usage: corpus FOLDER");
    let folder = Path::new(&folder);
    fs::create_dir_all(folder)?;
    for (name, input) in inputs(&mut Random::new(1)) {
        fs::write(folder.join(name), input.write())?;
    }
    Ok(())
}

/// All inputs with their names.
fn inputs(random: &mut Random) -> Vec<(String, Input)> {
    let (fresh, small) = (Register::fresh(), small(random));
    let mut inputs = Vec::new();
    for (index, word) in WORDS.iter().enumerate() {
        let any = wanted(random, &fresh, index, false);
        inputs.push((format!("fresh-{word}"), input(&fresh, &lines::write(&any))));
        let accepted = wanted(random, &small, index, true);
        inputs.push((format!("small-{word}"), input(&small, &lines::write(&accepted))));
    }
    for (number, line) in MALFORMED.iter().enumerate() {
        inputs.push((format!("malformed-{number}"), input(&fresh, line.as_bytes())));
    }
    for number in 0..DAMAGED {
        let mut damaged = input(&small, b"clock 9\n");
        damage_image(random, &mut damaged.image);
        inputs.push((format!("damaged-{number}"), damaged));
    }
    for (number, (mode, value)) in AREAS.into_iter().enumerate() {
        let roomy = input(&fresh, b"enrol 3 0\n");
        inputs.push((format!("area-{number}"), Input { mode, value, ..roomy }));
    }
    for (number, (mode, value, line)) in WITHOUT_BYTES.into_iter().enumerate() {
        let line = line.as_bytes().to_vec();
        inputs.push((
            format!("without-bytes-{number}"),
            Input { mode, value, image: Vec::new(), line },
        ));
    }
    inputs.extend(checks(random, &small));
    inputs
}

/// A check that is a yes, and the same with each number of its context beyond
/// its range.
fn checks(random: &mut Random, small: &Register) -> Vec<(String, Input)> {
    let yes = loop {
        match request(random, small, &Profile::small()) {
            Request::Check(asked)
                if apply_trusted(&mut small.clone(), &Request::Check(asked)) == Ok(1) =>
            {
                break asked;
            }
            _ => (),
        }
    };
    let inquiries = [
        ("yes", yes),
        ("hour", Inquiry { hour: 24, ..yes }),
        ("place", Inquiry { place: 16, ..yes }),
        ("device", Inquiry { device: 16, ..yes }),
    ];
    let named = |(name, asked)| {
        (format!("check-{name}"), input(small, &lines::write(&Request::Check(asked))))
    };
    inquiries.map(named).into()
}

/// An input with an area that is just long enough.
fn input(register: &Register, line: &[u8]) -> Input {
    Input { mode: EXACT, value: JUST, image: encode(register), line: line.to_vec() }
}

/// A register with a little of everything.
fn small(random: &mut Random) -> Register {
    let mut register = Register::fresh();
    for request in requests(random, &register, &Profile::small(), LINES) {
        let _ = apply_trusted(&mut register, &request);
    }
    register
}

/// A request of this call for the register, one that it accepts if so wanted.
fn wanted(random: &mut Random, register: &Register, index: usize, accepted: bool) -> Request {
    loop {
        let request = request(random, register, &Profile::small());
        let fits = || apply_trusted(&mut register.clone(), &request).is_ok();
        if request.index() == index && (!accepted || fits()) {
            return request;
        }
    }
}

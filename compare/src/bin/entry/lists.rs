//! Lists of calls: each call gets the image that the call before it left, and
//! a refused call leaves the one that it got. Some lists begin with an image
//! without bytes, and some load one on the way. One list counts once.

use crate::library::{Areas, ROOMY};
use compare::answers::Answers;
use compare::comparisons;
use compare::contexts;
use compare::met::{Least, Met};
use compare::requests::{follow, line, PROFILES};
use compare::tally::Tally;
use compare::without_bytes;
use reference::random::Random;
use reference::register::CAPABILITIES;
use reference::{encode, generate, Register};
use std::process::ExitCode;

/// Four lists for each profile and length, which makes 140,000 calls.
const LISTS: u64 = 80;
const LENGTHS: [usize; 4] = [200, 800, 2_000, 4_000];
/// After them, four short lists for each profile with loads of no bytes.
const LOADING: u64 = 20;
/// One of so many calls follows such a load.
const LOADS: u64 = 20;

/// How often those loads must occur, and where the image of no bytes must be.
const LEAST_LOADS: u64 = 100;
const LEAST_PLACES: u64 = 130;
/// How often calls must have an image without bytes. Here every area is roomy.
const LEAST_WITHOUT_BYTES: without_bytes::Least =
    without_bytes::Least { accepted: 110, refused_by_call: 130, malformed: 25, area_too_short: 0 };

/// How often the lists must meet the borders of lives, pairs that are nearly alike,
/// and contexts that decide. Seldom a session is open on a life without a tick.
const LEAST: Least = Least {
    borders: [
        [50, 40, 8],     // the first tick
        [200, 110, 70],  // before the last
        [90, 65, 25],    // the last
        [140, 190, 30],  // the last of all
        [40, 40, 0],     // no tick
        [300, 330, 280], // a role at the end
    ],
    comparisons: comparisons::Least {
        decided: [
            [50, 50, 50],   // domain
            [145, 50, 16],  // authority
            [135, 80, 12],  // first tick
            [130, 50, 16],  // last tick
            [190, 130, 11], // use limit
            [115, 48, 15],  // creation limit
            [140, 85, 15],  // hop limit
            [135, 29, 60],  // hours
            [150, 70, 55],  // places
            [125, 55, 40],  // devices
        ],
        disregarded: [900, 840, 55, 440, 260, 1060, 640, 780, 700, 200],
        balanced: [40, 38, 55],
    },
    contexts: contexts::Least {
        parts: [
            [75, 75, 20, 95, 85, 25, 19, 20, 70, 30, 35], // hour
            [65, 75, 25, 85, 90, 35, 45, 25, 65, 30, 35], // place
            [55, 70, 20, 85, 95, 30, 35, 25, 75, 30, 35], // device
        ],
        wholes: [150, 170, 25, 40, 2, 20],
        arguments: [70, 100, 110, 80],
    },
};

/// What occurred in the lists.
#[derive(Default)]
struct Seen {
    answers: Answers,
    /// Of them, those to calls whose image had no bytes.
    without_bytes: Answers,
    /// Loads of no bytes on the way.
    loads: u64,
    met: Met,
    /// Calls that added the last pass that there can be.
    capabilities_filled: u64,
    /// Calls that opened the last session that was not open.
    sessions_filled: u64,
}

pub fn run() -> ExitCode {
    let mut areas = Areas::new();
    let mut seen = Seen::default();
    let mut tally = Tally::default();
    tally.play(LISTS + LOADING, |seed| play(seed, &mut areas, &mut seen));
    let Seen { answers, without_bytes, loads, met, capabilities_filled, sessions_filled } = seen;
    println!("{} calls, with {loads} loads of no bytes: {answers}", answers.total());
    println!(
        "filled: with 256 passes {capabilities_filled} times, with 64 sessions {sessions_filled}"
    );
    tally.require(answers.accepted() > 0, "an accepted call");
    for number in 1..=13 {
        tally.require(answers.refused(number) > 0, &format!("the refusal {number}"));
    }
    tally.require(capabilities_filled > 0, "a register filled with passes");
    tally.require(sessions_filled > 0, "a register filled with sessions");
    tally.require_often(loads, LEAST_LOADS, "a load of no bytes in a list");
    without_bytes::require(&mut tally, &without_bytes, &LEAST_WITHOUT_BYTES);
    areas.require_places(&mut tally, LEAST_PLACES);
    met.require(&mut tally, &LEAST);
    tally.finish()
}

fn play(seed: u64, areas: &mut Areas, seen: &mut Seen) -> Result<(), String> {
    let mut random = Random::new(seed);
    let profile = PROFILES[seed as usize % PROFILES.len()]();
    let length = match seed < LISTS {
        true => LENGTHS[seed as usize / PROFILES.len() % LENGTHS.len()],
        false => LENGTHS[0],
    };
    let mut register = start(&mut random);
    let mut image = first_image(seed, &register);
    for _ in 0..length {
        if seed >= LISTS && random.chance(1, LOADS) {
            (register, image) = (Register::fresh(), Vec::new());
            seen.loads += 1;
        }
        let line = line(&mut random, &register, &profile);
        let answer = areas.ask(&image, &line, ROOMY)?;
        seen.count(&register, &image, &line, answer);
        if answer >= 0 {
            image = areas.image().to_vec();
            let before = full(&register);
            follow(&mut register, &line);
            let after = full(&register);
            seen.capabilities_filled += u64::from(!before.0 && after.0);
            seen.sessions_filled += u64::from(!before.1 && after.1);
        }
    }
    Ok(())
}

impl Seen {
    /// Counts the answer to a line on the register of this image.
    fn count(&mut self, register: &Register, image: &[u8], line: &[u8], answer: i64) {
        self.answers.add(answer);
        if image.is_empty() {
            self.without_bytes.add(answer);
        }
        self.met.add(register, line);
    }
}

/// The image of the start; every second list that starts fresh has no bytes.
fn first_image(seed: u64, register: &Register) -> Vec<u8> {
    match *register == Register::fresh() && seed.is_multiple_of(2) {
        true => Vec::new(),
        false => encode(register),
    }
}

/// Mostly a fresh register, otherwise any that keeps the rules.
fn start(random: &mut Random) -> Register {
    match random.chance(3, 4) {
        true => Register::fresh(),
        false => generate::register(random),
    }
}

/// Whether all passes are there, and whether all sessions are open.
fn full(register: &Register) -> (bool, bool) {
    let capabilities = usize::from(register.count) == CAPABILITIES;
    (capabilities, register.sessions.iter().all(|session| session.active))
}

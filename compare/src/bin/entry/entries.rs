//! Lines of every kind on varied registers, with areas of every interesting
//! length, and some on damaged images and on an image without bytes: often
//! several refusals apply, and the answer shows their order. A batch of 1,000
//! lines, with those on no bytes, counts once.

use crate::library::{Areas, LARGEST, ROOMY};
use crate::malformed::malformed;
use compare::answers::Answers;
use compare::comparisons;
use compare::contexts;
use compare::met::{Least, Met};
use compare::registers::varied;
use compare::requests::{follow, line, PROFILES};
use compare::tally::Tally;
use compare::without_bytes;
use reference::generate::{damage_image, Profile};
use reference::image::LONGEST;
use reference::random::Random;
use reference::{encode, Register};
use std::cmp::Ordering;
use std::process::ExitCode;

const BATCHES: u64 = 100;
/// Registers of a batch.
const REGISTERS: usize = 20;
/// Lines for a register.
const LINES: usize = 50;
/// Lines of a batch on an image without bytes.
const ON_NO_BYTES: usize = 24;

/// How often the lines must meet the borders of lives, pairs that are nearly alike,
/// and contexts that decide. Hardly a session is on a role whose masks all leave
/// something out, so checks on a role that are 0 for all three numbers are not asked
/// for.
const LEAST: Least = Least {
    borders: [
        [30, 14, 3],  // the first tick
        [60, 33, 19], // before the last
        [19, 10, 6],  // the last
        [22, 17, 7],  // the last of all
        [15, 11, 2],  // no tick
        [18, 15, 11], // a role at the end
    ],
    comparisons: comparisons::Least {
        decided: [
            [12, 12, 12], // domain
            [43, 20, 6],  // authority
            [23, 17, 2],  // first tick
            [20, 7, 4],   // last tick
            [37, 23, 3],  // use limit
            [26, 11, 5],  // creation limit
            [22, 12, 5],  // hop limit
            [20, 7, 7],   // hours
            [19, 7, 8],   // places
            [32, 14, 17], // devices
        ],
        disregarded: [185, 175, 9, 55, 55, 200, 140, 155, 145, 24],
        balanced: [4, 3, 6],
    },
    contexts: contexts::Least {
        parts: [
            [7, 18, 8, 11, 15, 2, 6, 14, 35, 20, 20],  // hour
            [8, 15, 5, 14, 17, 4, 11, 11, 30, 20, 25], // place
            [7, 12, 3, 12, 16, 6, 8, 7, 35, 20, 20],   // device
        ],
        wholes: [20, 45, 6, 13, 0, 5],
        arguments: [45, 55, 70, 60],
    },
};

/// How often the answers on no bytes must be given, each of [`ROOMS`] be met,
/// and each place of the image.
const LEAST_WITHOUT_BYTES: without_bytes::Least = without_bytes::Least {
    accepted: 250,
    refused_by_call: 400,
    malformed: 380,
    area_too_short: 150,
};
const LEAST_ROOMS: [u64; 4] = [25, 120, 50, 200];
const LEAST_PLACES: u64 = 1_000;

/// The lengths of an area for a new image, by what they have room for.
const ROOMS: [&str; 4] = ["for nothing", "for less", "for just the image", "for more"];

/// What occurred in the batches.
#[derive(Default)]
struct Seen {
    answers: Answers,
    met: Met,
    without_bytes: Answers,
    /// On no bytes, the areas of lines that only want of room refuses.
    rooms: [u64; ROOMS.len()],
}

pub fn run() -> ExitCode {
    let mut areas = Areas::new();
    let mut seen = Seen::default();
    let mut tally = Tally::default();
    tally.play(BATCHES, |seed| play(seed, &mut areas, &mut seen));
    let Seen { answers, met, without_bytes, rooms } = seen;
    println!("{} lines: {answers}", answers.total());
    tally.require(answers.accepted() > 0, "an accepted line");
    tally.require(answers.refused_by_call() > 0, "a call's own refusal");
    for number in [14, 1, 16] {
        tally.require(answers.refused(number) > 0, &format!("the refusal {number}"));
    }
    without_bytes::require(&mut tally, &without_bytes, &LEAST_WITHOUT_BYTES);
    require_rooms(&mut tally, &rooms);
    areas.require_places(&mut tally, LEAST_PLACES);
    met.require(&mut tally, &LEAST);
    tally.finish()
}

/// Prints how often the areas on no bytes had each room, and makes a failure of
/// each that was met less often than it must.
fn require_rooms(tally: &mut Tally, rooms: &[u64; ROOMS.len()]) {
    for (place, room) in ROOMS.iter().enumerate() {
        println!("  room {room}: {}", rooms[place]);
        let what = format!("a line on no bytes with room {room}");
        tally.require_often(rooms[place], LEAST_ROOMS[place], &what);
    }
}

fn play(seed: u64, areas: &mut Areas, seen: &mut Seen) -> Result<(), String> {
    let mut random = Random::new(seed);
    for _ in 0..REGISTERS {
        let profile = random.pick(&PROFILES)();
        let register = varied(&mut random, &profile);
        let saved = encode(&register);
        for _ in 0..LINES {
            let line = any_line(&mut random, &register, &profile);
            let length = area_length(&mut random, length_after(&register, &line));
            let mut image = saved.clone();
            if random.chance(1, 12) {
                damage_image(&mut random, &mut image);
            }
            let answer = areas.ask(&image, &line, length)?;
            seen.answers.add(answer);
            // 16 would hide what the call itself answers
            if image == saved && answer != -16 {
                seen.met.add(&register, &line);
            }
        }
    }
    play_on_no_bytes(&mut random, areas, seen)
}

/// Lines on an image without bytes, most of which fit a fresh register.
fn play_on_no_bytes(random: &mut Random, areas: &mut Areas, seen: &mut Seen) -> Result<(), String> {
    let fresh = Register::fresh();
    for _ in 0..ON_NO_BYTES {
        let profile = random.pick(&PROFILES)();
        let line = any_line(random, &fresh, &profile);
        let after = length_after(&fresh, &line);
        let length = area_length(random, after);
        let answer = areas.ask(&[], &line, length)?;
        seen.without_bytes.add(answer);
        if answer >= 0 || answer == -16 {
            seen.rooms[room(length, after + 2)] += 1;
        }
    }
    Ok(())
}

/// The place in [`ROOMS`] of an area of this length, where so much is needed.
fn room(length: usize, needed: usize) -> usize {
    match length.cmp(&needed) {
        _ if length == 0 => 0,
        Ordering::Less => 1,
        Ordering::Equal => 2,
        Ordering::Greater => 3,
    }
}

/// A line that fits, one with any numbers, or a malformed one.
fn any_line(random: &mut Random, register: &Register, profile: &Profile) -> Vec<u8> {
    match random.below(8) {
        0 => line(random, register, &Profile::wild()),
        1 | 2 => {
            let line = line(random, register, profile);
            malformed(random, &line)
        }
        _ => line(random, register, profile),
    }
}

/// The length of the image after the line.
fn length_after(register: &Register, line: &[u8]) -> usize {
    let mut after = register.clone();
    follow(&mut after, line);
    encode(&after).len()
}

/// The length of an area for an image of this length: with the two bytes
/// before the image it is just enough, hardly not enough, or any other.
fn area_length(random: &mut Random, image: usize) -> usize {
    match random.below(16) {
        0 => 0,
        1 => 1,
        2 => 2,
        3 => image,
        4 => image + 1,
        5 | 6 => image + 2,
        7 => image + 3,
        8 => image + random.below(200) as usize,
        9 => random.below(image as u64) as usize,
        10 => LONGEST,
        11 => LONGEST + 2,
        12 => LARGEST,
        _ => ROOMY,
    }
}

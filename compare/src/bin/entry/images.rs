//! Images, saved, damaged, of damaged registers and of few bytes or none, with
//! a line that changes nothing: the answer shows the verdict, and the area the
//! register. A batch of 1,000 damaged images, with the others from the same
//! registers, counts once.

use crate::library::{Areas, ROOMY};
use compare::answers::Answers;
use compare::registers::varied;
use compare::requests::PROFILES;
use compare::tally::Tally;
use reference::generate::{damage_image, damage_register, short_image};
use reference::image::SHORTEST;
use reference::random::Random;
use reference::register::CAPABILITIES;
use reference::{encode, Register};
use std::process::ExitCode;

const BATCHES: u64 = 200;
/// Registers of a batch.
const REGISTERS: usize = 20;
/// Damaged images for each register.
const DAMAGED: usize = 50;
/// Images of damaged registers, for each register.
const CHANGED: usize = 20;

/// How often an image without bytes must be accepted, and be at each place.
const LEAST_WITHOUT_BYTES: u64 = 500;
const LEAST_PLACES: u64 = 300;
/// How often zero bytes must be refused, at each length and in all; and so often
/// a fresh register's image be accepted.
const LEAST_ZEROS: u64 = 25;
const LEAST_ZEROS_IN_ALL: u64 = 900;

/// What occurred in the batches.
#[derive(Default)]
struct Seen {
    saved: Answers,
    damaged: Answers,
    changed: Answers,
    short: Short,
    /// Registers with all passes.
    full: u64,
    /// Registers with a life that has no tick.
    lifeless: u64,
}

/// The verdicts on images of few bytes.
#[derive(Default)]
struct Short {
    without_bytes: Answers,
    /// On zero bytes, by their number.
    zeros: [Answers; SHORTEST + 2],
    others: Answers,
}

pub fn run() -> ExitCode {
    let mut areas = Areas::new();
    let mut seen = Seen::default();
    let mut tally = Tally::default();
    tally.play(BATCHES, |seed| play(seed, &mut areas, &mut seen));
    let Seen { saved, damaged, changed, short, full, lifeless } = seen;
    println!(
        "{} saved images, {full} of them with 256 passes, {lifeless} with a life without a tick: \
         {saved}",
        saved.total()
    );
    println!("{} damaged images: {damaged}", damaged.total());
    println!("{} images of damaged registers: {changed}", changed.total());
    tally.require(full > 0, "an image with 256 passes");
    tally.require(lifeless > 0, "an image with a life without a tick");
    tally.require(saved.accepted() > 0, "a saved image accepted");
    for answers in [damaged, changed] {
        tally.require(answers.accepted() > 0, "a damaged image accepted");
        tally.require(answers.refused(14) > 0, "a damaged image refused");
    }
    short.require(&mut tally);
    areas.require_places(&mut tally, LEAST_PLACES);
    tally.finish()
}

impl Short {
    fn add(&mut self, image: &[u8], answer: i64) {
        let zeros = image.iter().all(|&byte| byte == 0);
        let answers = match self.zeros.get_mut(image.len()) {
            _ if image.is_empty() => &mut self.without_bytes,
            Some(answers) if zeros => answers,
            _ => &mut self.others,
        };
        answers.add(answer);
    }

    /// Prints the verdicts, and makes a failure of each that was given less
    /// often than it must.
    fn require(&self, tally: &mut Tally) {
        let Short { without_bytes, zeros, others } = self;
        println!("{} images without bytes: {without_bytes}", without_bytes.total());
        let accepted = without_bytes.accepted();
        tally.require_often(accepted, LEAST_WITHOUT_BYTES, "an image without bytes accepted");
        let fresh = zeros[SHORTEST].accepted();
        let refused: u64 = zeros.iter().map(|answers| answers.refused(14)).sum();
        println!("images of zero bytes: {fresh} accepted, {refused} refused with 14");
        tally.require_often(fresh, LEAST_ZEROS, "a fresh register's image accepted");
        tally.require_often(refused, LEAST_ZEROS_IN_ALL, "zero bytes refused");
        for (length, answers) in zeros.iter().enumerate() {
            if length != 0 && length != SHORTEST {
                let what = format!("{length} zero bytes refused");
                tally.require_often(answers.refused(14), LEAST_ZEROS, &what);
            }
        }
        println!("{} other images of few bytes: {others}", others.total());
        tally.require(others.refused(14) > 0, "another image of few bytes refused");
    }
}

fn play(seed: u64, areas: &mut Areas, seen: &mut Seen) -> Result<(), String> {
    let mut random = Random::new(seed);
    for _ in 0..REGISTERS {
        let profile = random.pick(&PROFILES)();
        let register = varied(&mut random, &profile);
        seen.full += u64::from(usize::from(register.count) == CAPABILITIES);
        seen.lifeless += u64::from(has_life_without_a_tick(&register));
        let image = encode(&register);
        seen.saved.add(verdict(areas, &image)?);
        for _ in 0..DAMAGED {
            let mut damaged = image.clone();
            damage_image(&mut random, &mut damaged);
            seen.damaged.add(verdict(areas, &damaged)?);
        }
        for _ in 0..CHANGED {
            let mut changed = register.clone();
            damage_register(&mut random, &mut changed);
            seen.changed.add(verdict(areas, &encode(&changed))?);
        }
        let short = short_image(&mut random, &image);
        seen.short.add(&short, verdict(areas, &short)?);
    }
    Ok(())
}

/// Whether a pass ends as it begins.
fn has_life_without_a_tick(register: &Register) -> bool {
    let passes = &register.capabilities[..usize::from(register.count)];
    passes.iter().any(|pass| pass.first == pass.last)
}

/// The answer to the line that sets the clock to the tick which the image
/// shows: every register accepts it and stays as it is.
fn verdict(areas: &mut Areas, image: &[u8]) -> Result<i64, String> {
    let clock = image.first_chunk().map_or(0, |bytes| u32::from_be_bytes(*bytes));
    areas.ask(image, format!("clock {clock}\n").as_bytes(), ROOMY)
}

//! The guarantee over lists (§7.2) on random ones.

mod common;
#[path = "common/monitor.rs"]
mod monitor;

use common::assert_met;
use monitor::{Monitor, Tally};
use reference::generate::{self, Border, Profile};
use reference::random::Random;
use reference::request::WORDS;
use reference::{apply, encode, Register};

/// So many lists of so many requests by the profile, each from a fresh
/// register or, if `started`, from a random one.
fn play(seed: u64, profile: &Profile, lists: u64, length: u64, started: bool) -> Tally {
    let mut random = Random::new(seed);
    let mut tally = Tally::default();
    for _ in 0..lists {
        let start = match started {
            true => generate::register(&mut random),
            false => Register::fresh(),
        };
        let mut monitor = Monitor::new(start, tally);
        for _ in 0..length {
            let request = generate::request(&mut random, &monitor.register, profile);
            let _ = monitor.step(&request);
        }
        tally = monitor.tally;
    }
    tally
}

fn assert_accepted(tally: &Tally, least: u64) {
    for (word, &accepted) in WORDS.iter().zip(&tally.accepted) {
        assert!(accepted >= least, "{word} was accepted {accepted} times");
    }
}

fn assert_refused(tally: &Tally, numbers: &[usize], least: u64) {
    for &number in numbers {
        let refused = tally.refused[number];
        assert!(refused >= least, "{number} was answered {refused} times");
    }
}

#[test]
fn lists_of_few_users() {
    let tally = play(1, &Profile::small(), 150, 800, false);
    assert_accepted(&tally, 100);
    assert_refused(&tally, &[2, 3, 4, 5, 6, 7, 8, 9, 10, 11, 13], 50);
    assert!(tally.wide_revokes >= 50, "{tally:?}");
    assert!(tally.partial_revokes >= 20, "{tally:?}");
    assert!(tally.changed_checks >= 100, "{tally:?}");
    assert!(tally.deep_yes >= 1_000, "{tally:?}");
    assert!(tally.yes_elsewhere >= 10_000, "{tally:?}");
    assert!(tally.not_admitted >= 5_000, "{tally:?}");
    assert!(tally.depth >= 8, "{tally:?}");
    assert_met(&tally.borders, Border::First, [50, 45, 10]);
    assert_met(&tally.borders, Border::BeforeLast, [260, 180, 120]);
    assert_met(&tally.borders, Border::Last, [100, 75, 50]);
    assert_met(&tally.borders, Border::LastOfAll, [90, 70, 8]);
    assert_met(&tally.borders, Border::Never, [40, 35, 0]);
    assert_met(&tally.borders, Border::RoleAtEnd, [170, 130, 80]);
}

#[test]
fn lists_that_fill_the_register() {
    let tally = play(2, &Profile::crowded(), 40, 2_000, false);
    assert_accepted(&tally, 10);
    assert_refused(&tally, &[2, 3, 4, 5, 6, 7, 8, 9, 10, 11, 12, 13], 10);
    assert!(tally.wide_revokes >= 10, "{tally:?}");
}

#[test]
fn lists_of_long_chains() {
    let tally = play(8, &Profile::deep(), 20, 2_000, false);
    assert_accepted(&tally, 10);
    assert!(tally.wide_revokes >= 20, "{tally:?}");
    assert!(tally.changed_checks >= 100, "{tally:?}");
    assert!(tally.depth >= 24, "{tally:?}");
}

#[test]
fn lists_over_all_users_and_roles() {
    let tally = play(3, &Profile::wide(), 20, 2_000, false);
    assert_accepted(&tally, 10);
    assert!(tally.wide_revokes >= 10, "{tally:?}");
    assert!(tally.changed_checks >= 100, "{tally:?}");
}

#[test]
fn lists_with_numbers_out_of_range() {
    let tally = play(4, &Profile::wild(), 20, 600, false);
    assert_accepted(&tally, 10);
    assert_refused(&tally, &[2], 1_000);
}

/// From registers that no list of calls makes.
#[test]
fn lists_from_random_registers() {
    let tally = play(5, &Profile::wide(), 100, 300, true);
    assert_accepted(&tally, 10);
    assert_refused(&tally, &[2, 3, 4, 5, 6, 7, 8, 9, 10, 11, 12, 13], 5);
    assert!(tally.wide_revokes >= 30, "{tally:?}");
    assert!(tally.changed_checks >= 100, "{tally:?}");
}

/// Lists with loads (§7.1.2); after an accepted one, derivation is what its
/// image shows (§7.1.3).
#[test]
fn lists_with_loads() {
    let mut random = Random::new(6);
    let (mut refused, mut accepted, mut without_bytes) = (0, 0, 0);
    let mut monitor = Monitor::new(Register::fresh(), Tally::default());
    for _ in 0..12_000 {
        let request = generate::request(&mut random, &monitor.register, &Profile::small());
        let _ = monitor.step(&request);
        if !random.chance(1, 40) {
            continue;
        }
        let mut image = match random.below(8) {
            0 => encode(&generate::register(&mut random)),
            1 => generate::short_image(&mut random, &encode(&monitor.register)),
            _ => encode(&monitor.register),
        };
        if !image.is_empty() && random.chance(1, 2) {
            generate::damage_image(&mut random, &mut image);
        }
        match monitor.load(&image) {
            Ok(_) => accepted += 1,
            Err(number) => {
                refused += 1;
                assert_eq!(number, 14);
            }
        }
        without_bytes += u32::from(image.is_empty());
    }
    assert!(accepted >= 50 && refused >= 50, "{accepted}, {refused}");
    assert!(without_bytes >= 5, "{without_bytes}");
    assert!(monitor.tally.wide_revokes >= 10, "{:?}", monitor.tally);
}

/// After a load of no bytes, a list is answered as one from a fresh register,
/// whatever came before (§7.1.2).
#[test]
fn lists_with_loads_of_no_bytes() {
    let mut random = Random::new(9);
    let mut monitor = Monitor::new(generate::register(&mut random), Tally::default());
    let mut late = 0;
    for _ in 0..60 {
        late += u32::from(monitor.register.clock > 0 && monitor.register.count > 0);
        assert_eq!(monitor.load(&[]), Ok(0));
        assert_eq!(monitor.register, Register::fresh());
        let length = random.below(200) as usize;
        let list = generate::requests(&mut random, &Register::fresh(), &Profile::small(), length);
        let mut from_fresh = Register::fresh();
        for request in &list {
            assert_eq!(monitor.step(request), apply(&mut from_fresh, request));
        }
        assert_eq!(monitor.register, from_fresh);
    }
    assert!(late >= 20, "{late}");
    assert!(monitor.tally.accepted.iter().sum::<u64>() >= 1_000, "{:?}", monitor.tally);
}

/// The empty list: the start is all there is.
#[test]
fn the_empty_list() {
    let tally = play(7, &Profile::small(), 20, 0, true);
    assert_eq!(tally.accepted.iter().sum::<u64>(), 0);
}

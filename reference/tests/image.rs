//! The image: layout, round trips, damage and lengths.

mod common;

use common::{after, longest_chain, perform, sample, LISTING};
use reference::generate::{self, Profile};
use reference::image::{LONGEST, SHORTEST};
use reference::random::Random;
use reference::{apply_trusted, encode, load, save, well_formed, Register};

/// The image has a length in the range, loads as the register, and is what
/// save writes, into a buffer of its length or a longer one.
fn assert_round_trip(register: &Register) {
    let image = encode(register);
    assert!((SHORTEST..=LONGEST).contains(&image.len()), "{}", image.len());
    assert_eq!(load(&image).as_ref(), Ok(register));
    let mut buffer = vec![0xaa; image.len() + 7];
    assert_eq!(save(register, &mut buffer[..image.len() - 1]), Err(16));
    assert_eq!(save(register, &mut []), Err(16));
    assert!(buffer.iter().all(|&byte| byte == 0xaa));
    assert_eq!(save(register, &mut buffer), Ok(image.len()));
    assert_eq!(buffer[..image.len()], image);
    assert_eq!(buffer[image.len()..], [0xaa; 7]);
    let mut exact = vec![0; image.len()];
    assert_eq!(save(register, &mut exact), Ok(image.len()));
    assert_eq!(exact, image);
}

/// Whatever loads keeps the rules and has just these bytes as its image; where
/// there are none, those of a fresh register.
fn loads(image: &[u8]) -> bool {
    match load(image) {
        Ok(register) => {
            assert!(well_formed(&register));
            let saved = if image.is_empty() { &[0; SHORTEST] } else { image };
            assert_eq!(encode(&register), saved);
            assert!((SHORTEST..=LONGEST).contains(&saved.len()));
            true
        }
        Err(number) => {
            assert_eq!(number, 14);
            false
        }
    }
}

fn listed() -> Register {
    let lines: Vec<&str> = LISTING.lines().collect();
    after(&lines)
}

#[test]
fn fresh_register_has_26_zero_bytes() {
    assert_eq!(encode(&Register::fresh()), [0; 26]);
    assert_round_trip(&Register::fresh());
}

#[test]
fn numbers_have_the_high_byte_first_and_maps_the_low_bit_first() {
    let register = after(&[
        "clock 16909060",
        "enrol 9 5",
        "found 17 5 66051 258 772",
        "grant 17 0",
        "grant 17 31",
        "appoint 9 17",
        "open 63 9 role 17 0 1 2",
    ]);
    let mut image = vec![1, 2, 3, 4]; // clock
    image.extend([0, 2, 0, 0, 0, 0, 0, 0, 5]); // user 9 of domain 5
    image.extend([0, 0, 2, 0, 5, 128, 0, 0, 1]); // role 17, domain, permissions
    image.extend([1, 2, 3, 1, 2, 3, 4]); // hours, places, devices
    image.extend([0, 2, 0, 0, 0, 0, 0, 0]); // appointed
    image.extend([0, 0]); // no capability
    image.extend([0, 0, 0, 0, 0, 0, 0, 128]); // session 63
    image.extend([9, 0, 17, 0, 1, 2]);
    assert_eq!(load(&image), Ok(register.clone()));
    assert_eq!(encode(&register), image);
}

#[test]
fn sample_and_listing_make_round_trips() {
    assert_round_trip(&sample());
    assert_round_trip(&listed());
}

#[test]
fn random_registers_make_round_trips() {
    let mut random = Random::new(20);
    let (mut longest, mut full) = (0, 0);
    for _ in 0..1_500 {
        let register = generate::register(&mut random);
        assert_round_trip(&register);
        longest = longest.max(encode(&register).len());
        full += u32::from(register.count == 256);
    }
    assert!(longest > 8_000 && full > 100, "{longest}, {full}");
}

#[test]
fn registers_made_by_calls_make_round_trips() {
    let mut random = Random::new(21);
    for profile in [Profile::small(), Profile::crowded(), Profile::wide(), Profile::deep()] {
        let mut register = Register::fresh();
        for _ in 0..1_500 {
            let request = generate::request(&mut random, &register, &profile);
            let _ = apply_trusted(&mut register, &request);
            assert_eq!(load(&encode(&register)).as_ref(), Ok(&register));
        }
        assert_round_trip(&register);
    }
}

/// Two bytes below the bound (§8.3.1): the last capability of a chain is
/// nobody's origin, so that its field of creations is absent.
#[test]
fn a_chain_of_256_capabilities_has_13400_bytes() {
    let register = longest_chain();
    assert_eq!(register.count, 256);
    assert_eq!(encode(&register).len(), 13_400);
    assert_round_trip(&register);
    assert_eq!(perform(&mut register.clone(), "revoke 63 0"), Ok(256));
    assert_eq!(perform(&mut register.clone(), "revoke 63 17"), Ok(239));
}

#[test]
fn every_other_length_of_an_image_gives_14() {
    for image in [encode(&listed()), encode(&sample())] {
        for length in 1..image.len() {
            assert_eq!(load(&image[..length]), Err(14), "{length}");
        }
        for extra in [&[0][..], &[1], &[0; 26]] {
            assert_eq!(load(&[&image[..], extra].concat()), Err(14));
        }
    }
}

/// All values of all bytes.
#[test]
fn each_byte_of_an_image_has_its_meaning() {
    for image in [encode(&listed()), encode(&sample())] {
        let mut verdicts = [0; 2];
        for (place, value) in (0..image.len()).flat_map(|place| (0..=255).map(move |v| (place, v)))
        {
            let mut changed = image.clone();
            changed[place] = value;
            verdicts[usize::from(loads(&changed))] += 1;
        }
        assert!(verdicts.iter().all(|&verdict| verdict > 2_000), "{verdicts:?}");
    }
}

#[test]
fn damaged_images_load_only_if_they_are_images() {
    let mut random = Random::new(22);
    let (mut accepted, mut refused) = (0, 0);
    for _ in 0..400 {
        let image = encode(&generate::register(&mut random));
        for _ in 0..60 {
            let mut damaged = image.clone();
            generate::damage_image(&mut random, &mut damaged);
            match loads(&damaged) {
                true if damaged != image => accepted += 1,
                true => (),
                false => refused += 1,
            }
        }
    }
    assert!(accepted > 500 && refused > 5_000, "{accepted}, {refused}");
}

#[test]
fn random_bytes_seldom_are_an_image() {
    let mut random = Random::new(23);
    for length in 1..200 {
        let bytes: Vec<u8> = (0..length).map(|_| random.bits() as u8).collect();
        assert!(!loads(&bytes));
    }
}

/// User 0 and role 0 with all permissions and masks; one capability with the
/// map of fields and the bytes of fields given.
fn one_capability(kind: u8, number: u8, creator: u8, map: u16, fields: &[u8]) -> Vec<u8> {
    let mut image = vec![0, 0, 0, 0];
    image.extend([1, 0, 0, 0, 0, 0, 0, 0, 0]);
    image.extend([1, 0, 0, 0, 0]);
    image.extend([255; 11]);
    image.extend([1, 0, 0, 0, 0, 0, 0, 0]);
    image.extend([0, 1, kind, number, creator]);
    image.extend(map.to_be_bytes());
    image.extend(fields);
    image.extend([0; 8]);
    image
}

/// The widths of the fields, by their bits.
const WIDTHS: [usize; 14] = [4, 4, 8, 4, 4, 2, 2, 2, 2, 2, 2, 3, 2, 2];

#[test]
fn a_field_is_there_exactly_when_it_is_not_zero() {
    assert!(loads(&one_capability(0, 0, 0, 0, &[])));
    for (bit, &width) in WIDTHS.iter().enumerate() {
        let zero = vec![0; width];
        assert!(!loads(&one_capability(0, 0, 0, 1 << bit, &zero)), "field {bit} is 0");
        assert!(!loads(&one_capability(0, 0, 0, 0, &zero)), "field {bit} without its bit");
        let mut one = vec![0; width];
        one[width - 1] = 1;
        // A holder without a hop and the reverse, a first tick above the last,
        // a creation of nothing.
        let broken = [2, 3, 8, 10].contains(&bit);
        assert_eq!(loads(&one_capability(0, 0, 0, 1 << bit, &one)), !broken, "field {bit} is 1");
    }
}

#[test]
fn fields_stand_in_the_order_of_their_bits() {
    let fields = [
        &[0, 0, 0, 2][..], // permissions
        &[0, 0, 0, 1],     // roles
        &[1, 0, 0, 0, 0, 0, 0, 0],
        &[0, 0, 0, 3],
        &[0, 0, 0, 4],
        &[0, 5], // use limit, uses, creation limit
        &[0, 6],
        &[0, 7],
        &[0, 8], // hop limit, hops
        &[0, 1],
        &[0, 0, 9], // masks
        &[0, 10],
        &[0, 11],
    ];
    let image = one_capability(0, 0, 0, 0b0111_1110_1111_1111, &fields.concat());
    assert!(loads(&image));
    let kept = load(&image).unwrap().capabilities[0];
    assert_eq!((kept.permissions, kept.lent, kept.holders), (2, 1, 1));
    assert_eq!((kept.first, kept.last), (3, 4));
    assert_eq!((kept.use_limit, kept.uses), (5, 6));
    assert_eq!((kept.creation_limit, kept.creations), (7, 0));
    assert_eq!((kept.hop_limit, kept.hops), (8, 1));
    assert_eq!((kept.hours, kept.places, kept.devices, kept.revoked), (9, 10, 11, true));
}

/// Equal ticks are in order (§4.3.4), and their bytes come back.
#[test]
fn a_life_without_a_tick_is_loaded_and_saved() {
    for tick in [7, u32::MAX] {
        let with_last = |last: u32| {
            let fields = [tick.to_be_bytes(), last.to_be_bytes()].concat();
            one_capability(0, 0, 0, 0b1_1000, &fields)
        };
        let image = with_last(tick);
        let register = load(&image).unwrap();
        let kept = &register.capabilities[0];
        assert_eq!((kept.first, kept.last), (tick, tick));
        assert_eq!(encode(&register), image);
        assert_round_trip(&register);
        assert!(!loads(&with_last(tick - 1)));
    }
}

#[test]
fn bits_14_and_15_of_the_map() {
    assert!(loads(&one_capability(0, 0, 0, 1 << 14, &[])));
    assert!(load(&one_capability(0, 0, 0, 1 << 14, &[])).unwrap().capabilities[0].revoked);
    assert!(!loads(&one_capability(0, 0, 0, 1 << 15, &[])));
}

#[test]
fn numbers_out_of_range_in_a_capability() {
    assert!(!loads(&one_capability(2, 0, 0, 0, &[])));
    assert!(!loads(&one_capability(255, 0, 0, 0, &[])));
    assert!(!loads(&one_capability(1, 0, 0, 0, &[]))); // its own origin
    assert!(!loads(&one_capability(0, 1, 0, 0, &[]))); // not founded
    assert!(!loads(&one_capability(0, 32, 0, 0, &[])));
    assert!(!loads(&one_capability(0, 0, 1, 0, &[]))); // not enrolled
    assert!(!loads(&one_capability(0, 0, 64, 0, &[])));
}

/// 257 capabilities would have the right length, but are too many.
#[test]
fn the_count_is_at_most_256() {
    let with = |count: u16| {
        let one = one_capability(0, 0, 0, 0, &[]);
        let head = one.len() - 8 - 5 - 2;
        let mut image = one[..head].to_vec();
        image.extend(count.to_be_bytes());
        (0..count).for_each(|_| image.extend([0, 0, 0, 0, 0]));
        image.extend([0; 8]);
        image
    };
    assert!(loads(&with(256)));
    assert!(!loads(&with(257)));
}

#[test]
fn numbers_out_of_range_in_users_roles_and_sessions() {
    let image = encode(&listed());
    let sessions = image.len() - 6;
    // Domains; then user, kind, number, hour, place and device of session 5.
    let places = [(12, 7), (17, 7)];
    for (place, last) in places {
        let mut changed = image.clone();
        changed[place] = last + 1;
        assert!(!loads(&changed), "domain at {place}");
    }
    for (offset, value) in [(0, 64), (1, 2), (2, 1), (3, 24), (4, 16), (5, 16)] {
        let mut changed = image.clone();
        changed[sessions + offset] = value;
        assert!(!loads(&changed), "session byte {offset}");
    }
    for (offset, value) in [(3, 23), (4, 15), (5, 15)] {
        let mut changed = image.clone();
        changed[sessions + offset] = value;
        assert!(loads(&changed), "session byte {offset}");
    }
}

//! The image without bytes, and what is next to it (§8.5.3): load takes it, save
//! never writes it.

mod common;

use common::{longest_chain, sample};
use reference::generate;
use reference::image::{LONGEST, SHORTEST};
use reference::random::Random;
use reference::{encode, load, load_into, save, Register};

/// Registers to load over; the last one breaks a rule, which no load asks for.
fn registers_before() -> [Register; 4] {
    let mut broken = sample();
    broken.domains[40] = 1;
    [Register::fresh(), sample(), longest_chain(), broken]
}

#[test]
fn no_bytes_load_as_the_fresh_register() {
    let register = load(&[]).expect("no bytes are accepted");
    assert_eq!((register.clock, register.enrolled, register.count), (0, 0, 0));
    assert!(register.roles.iter().all(|role| !role.founded));
    assert!(register.sessions.iter().all(|session| !session.active));
    assert_eq!(register, Register::fresh());
    for mut register in registers_before() {
        assert_eq!(load_into(&mut register, &[]), Ok(0));
        assert_eq!(register, Register::fresh());
    }
}

#[test]
fn zero_bytes_of_any_other_number_give_14() {
    for length in (0..=60).chain([LONGEST, 65_536]) {
        let expected = match length {
            0 | SHORTEST => Ok(Register::fresh()),
            _ => Err(14),
        };
        assert_eq!(load(&vec![0; length]), expected, "{length}");
    }
}

#[test]
fn a_single_byte_gives_14() {
    (0..=255).for_each(|byte| assert_eq!(load(&[byte]), Err(14), "{byte}"));
}

#[test]
fn a_refused_load_leaves_the_register() {
    let cut = encode(&sample())[1..].to_vec();
    for before in registers_before() {
        let mut register = before.clone();
        for image in [&[0][..], &[0; 25], &[0; 27], &[255], &cut] {
            assert_eq!(load_into(&mut register, image), Err(14));
            assert_eq!(register, before);
        }
    }
}

#[test]
fn what_no_bytes_load_is_saved_with_26_bytes() {
    let register = load(&[]).expect("no bytes are accepted");
    let mut buffer = [0xaa; 30];
    for length in 0..26 {
        assert_eq!(save(&register, &mut buffer[..length]), Err(16), "{length}");
        assert_eq!(buffer, [0xaa; 30]);
    }
    assert_eq!(save(&register, &mut buffer[..26]), Ok(26));
    assert_eq!(buffer[..26], [0; 26]);
    assert_eq!(buffer[26..], [0xaa; 4]);
}

/// All others that are accepted come back byte for byte (§8.6.2).
#[test]
fn only_the_image_without_bytes_is_not_saved_again() {
    let mut random = Random::new(24);
    let (mut again, mut without, mut refused) = (0, 0, 0);
    let mut buffer = vec![0; LONGEST];
    for round in 0..1_500 {
        let mut image = encode(&generate::register(&mut random));
        match round % 3 {
            0 => generate::damage_image(&mut random, &mut image),
            1 => image = generate::short_image(&mut random, &image),
            _ => (),
        }
        let Ok(register) = load(&image) else {
            refused += 1;
            continue;
        };
        let length = save(&register, &mut buffer).expect("there is room");
        assert_eq!(buffer[..length] == image, !image.is_empty());
        assert_eq!(load(&buffer[..length]), Ok(register));
        *(if image.is_empty() { &mut without } else { &mut again }) += 1;
    }
    assert!(again > 500 && without > 80 && refused > 500, "{again}, {without}, {refused}");
}

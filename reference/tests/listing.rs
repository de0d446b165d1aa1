//! The listing (§12.3.1), whole and byte for byte.

mod common;

use common::{LISTED, LISTING};
use reference::{encode, entry, journal, Register};

#[test]
fn journal_prints_the_listing() {
    assert_eq!(journal::run(LISTING.as_bytes()), LISTED.as_bytes());
}

#[test]
fn entry_answers_the_listing_line_by_line() {
    let mut image = vec![0; 26];
    let mut printed = String::new();
    for line in LISTING.split_inclusive('\n') {
        let mut buffer = [0xaa; 1000];
        let value = entry::apply(&image, line.as_bytes(), &mut buffer);
        assert!(value >= 0, "{line}: {value}");
        printed += &format!("ok {value}\n");
        let length = usize::from(u16::from_be_bytes([buffer[0], buffer[1]]));
        image = buffer[2..2 + length].to_vec();
        assert!(buffer[2 + length..].iter().all(|&byte| byte == 0xaa), "{line}");
    }
    assert_eq!(printed, LISTED);
    assert_eq!(image, image_after_the_listing());
}

/// The image after the listing, written down by hand.
fn image_after_the_listing() -> Vec<u8> {
    let mut image = vec![0, 0, 0, 0]; // clock
    image.extend([8, 0, 0, 0, 0, 0, 0, 0, 0]); // user 3, of domain 0
    image.extend([2, 0, 0, 0]); // role 1
    image.extend([0, 0, 0, 0, 17]); // its domain and permissions
    image.extend([255, 255, 255, 255, 255, 255, 255]); // its masks
    image.extend([8, 0, 0, 0, 0, 0, 0, 0]); // appointed: user 3
    image.extend([0, 1]); // one capability
    image.extend([0, 1, 3]); // on role 1, by user 3
    image.extend([0b0111_1110, 0b1111_0101]); // revoked, and the fields there
    image.extend([0, 0, 0, 16]); // own permissions
    image.extend([8, 0, 0, 0, 0, 0, 0, 0]); // holders: user 3
    image.extend([0, 0, 0, 100]); // last tick
    image.extend([0, 2, 0, 1]); // use limit and uses
    image.extend([0, 1, 0, 1, 0, 1]); // creation limit, hop limit, hops
    image.extend([255, 255, 255, 255, 255, 255, 255]); // masks
    image.extend([32, 0, 0, 0, 0, 0, 0, 0]); // session 5
    image.extend([3, 1, 0, 9, 0, 0]); // user 3 on capability 0 at 9, 0, 0
    image
}

#[test]
fn register_after_the_listing_has_the_image_written_by_hand() {
    let mut register = Register::fresh();
    for line in LISTING.split_inclusive('\n') {
        assert!(journal::perform(&mut register, line.as_bytes()).is_ok());
    }
    assert_eq!(encode(&register), image_after_the_listing());
}

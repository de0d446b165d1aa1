//! Damage that follows the layout of an image: records swapped, doubled or
//! taken out, maps turned round, presence bits changed with or without their
//! fields, and names changed.

use super::layout::{
    field_at, field_map, sections, Section, CAPABILITIES, ROLES, SESSIONS, USERS, WIDTHS,
};
use crate::random::Random;
use std::ops::Range;

/// Damages a record, a map or a presence bit. Bytes that have no such thing
/// stay as they are.
pub fn damage_records(random: &mut Random, image: &mut Vec<u8>) {
    let Some(sections) = sections(image) else {
        return;
    };
    let at = random.below(4) as usize;
    let section = &sections[at];
    match random.below(9) {
        0 => swap(random, image, &section.records),
        1 => turn(random, image, &sections),
        2 => flip(random, image, section.head.clone()),
        3 => take_out(random, image, section, at == CAPABILITIES),
        4 => double(random, image, section, at == CAPABILITIES),
        5 => rename(random, image, &sections[CAPABILITIES + at % 2].records),
        6 => make_bare(random, image, &sections[CAPABILITIES].records),
        _ => change_field(random, image, &sections[CAPABILITIES].records),
    }
}

/// One of the records, if there is one, with its place among them.
fn pick(random: &mut Random, records: &[Range<usize>]) -> Option<(usize, Range<usize>)> {
    let place = random.below(records.len() as u64) as usize;
    records.get(place).map(|record| (place, record.clone()))
}

/// Two records of a section change places, whatever their lengths.
fn swap(random: &mut Random, image: &mut Vec<u8>, records: &[Range<usize>]) {
    let (Some((_, one)), Some((_, other))) = (pick(random, records), pick(random, records)) else {
        return;
    };
    let (lower, upper) = if one.start < other.start { (one, other) } else { (other, one) };
    if lower.end <= upper.start {
        let between = lower.end..upper.start;
        let swapped = [&image[upper.clone()], &image[between], &image[lower.clone()]].concat();
        image.splice(lower.start..upper.end, swapped);
    }
}

/// A map is written the other way round: its bytes, the bits in them, or both.
/// It is that of a section, the appointed users of a role, or the holders of a
/// capability.
fn turn(random: &mut Random, image: &mut [u8], sections: &[Section; 4]) {
    let map = match random.below(5) {
        0 => Some(sections[USERS].head.clone()),
        1 => Some(sections[ROLES].head.clone()),
        2 => Some(sections[SESSIONS].head.clone()),
        3 => pick(random, &sections[ROLES].records).map(|(_, role)| role.end - 8..role.end),
        _ => holders(random, image, &sections[CAPABILITIES].records),
    };
    let map = &mut image[map.unwrap_or(0..0)];
    let way = random.below(3);
    if way != 0 {
        map.reverse();
    }
    if way != 1 {
        map.iter_mut().for_each(|byte| *byte = byte.reverse_bits());
    }
}

/// The map of the holders of a capability that has some.
fn holders(random: &mut Random, image: &[u8], records: &[Range<usize>]) -> Option<Range<usize>> {
    let held = |record: &&Range<usize>| field_map(&image[(*record).clone()]) >> 2 & 1 == 1;
    let records: Vec<Range<usize>> = records.iter().filter(held).cloned().collect();
    let (_, record) = pick(random, &records)?;
    let start = record.start + field_at(&image[record], 2);
    Some(start..start + WIDTHS[2])
}

/// One bit of the part, which has one.
fn flip(random: &mut Random, image: &mut [u8], part: Range<usize>) {
    let bit = random.below(8 * part.len() as u64) as usize;
    image[part.start + bit / 8] ^= 1 << (bit % 8);
}

/// A record is taken out, and in half of the cases the map or count says so.
fn take_out(random: &mut Random, image: &mut Vec<u8>, section: &Section, counted: bool) {
    let Some((place, record)) = pick(random, &section.records) else {
        return;
    };
    if random.chance(1, 2) {
        let head = &mut image[section.head.clone()];
        match counted {
            true => add(head, -1),
            false => toggle(head, true, place),
        }
    }
    image.drain(record);
}

/// A record stands twice, and in half of the cases the map or count has one
/// more.
fn double(random: &mut Random, image: &mut Vec<u8>, section: &Section, counted: bool) {
    let Some((_, record)) = pick(random, &section.records) else {
        return;
    };
    if random.chance(1, 2) {
        let head = &mut image[section.head.clone()];
        match counted {
            true => add(head, 1),
            false => {
                let absent = 8 * head.len() - section.records.len();
                toggle(head, false, random.below(absent as u64) as usize);
            }
        }
    }
    let copy = image[record.clone()].to_vec();
    image.splice(record.end..record.end, copy);
}

/// The number of two bytes, changed.
fn add(number: &mut [u8], change: i16) {
    let new = u16::from_be_bytes([number[0], number[1]]).wrapping_add_signed(change);
    number.copy_from_slice(&new.to_be_bytes());
}

/// Changes the bit with this place among those of the map that are `set`, or
/// among those that are not; no bit if there is none.
fn toggle(map: &mut [u8], set: bool, place: usize) {
    let fits = |bit: &usize| (map[bit / 8] >> (bit % 8) & 1 == 1) == set;
    let found = (0..8 * map.len()).filter(fits).nth(place);
    if let Some(bit) = found {
        map[bit / 8] ^= 1 << (bit % 8);
    }
}

/// A bit of a capability's map of fields changes, any of the 16: alone or, in
/// half of the cases, with the field, which comes as 0 or as another number.
fn change_field(random: &mut Random, image: &mut Vec<u8>, records: &[Range<usize>]) {
    let Some((_, record)) = pick(random, records) else {
        return;
    };
    let bit = random.below(16) as usize;
    let map = field_map(&image[record.clone()]);
    let at = record.start + field_at(&image[record.clone()], bit.min(WIDTHS.len()));
    image[record.start + 4 - bit / 8] ^= 1 << (bit % 8);
    let Some(&width) = WIDTHS.get(bit).filter(|_| random.chance(1, 2)) else {
        return;
    };
    let mut field = vec![0; width];
    field[width - 1] = random.pick(&[0, 0, 1, 255]);
    match map >> bit & 1 {
        1 => drop(image.drain(at..at + width)),
        _ => drop(image.splice(at..at, field)),
    }
}

/// A capability or session names another kind, role, capability or user: these
/// are the first three bytes of both.
fn rename(random: &mut Random, image: &mut [u8], records: &[Range<usize>]) {
    if let Some((_, record)) = pick(random, records) {
        image[record.start + random.below(3) as usize] = small(random);
    }
}

/// A capability loses all fields, and its origin is any.
fn make_bare(random: &mut Random, image: &mut Vec<u8>, records: &[Range<usize>]) {
    if let Some((_, record)) = pick(random, records) {
        let creator = image[record.start + 2];
        image.splice(record, [random.below(2) as u8, small(random), creator, 0, 0]);
    }
}

/// A number below 64, mostly a small one.
fn small(random: &mut Random) -> u8 {
    (random.below(64) >> random.below(6)) as u8
}

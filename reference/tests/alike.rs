//! What same compares and what it passes over (§6.17.2, §6.17.3), each alone.

mod common;

use common::{accept_all, accepts, after, perform, refuses, ALL};
use reference::{Capability, Register};

/// First and last tick, limits of uses, creations and hops, hours, places and
/// devices: each of their bits can be another one alone.
const TERMS: [u64; 8] =
    [0x1234_5678, 0x9234_5678, 0x1234, 0x4321, 0x5678, 0x12_3456, 0x1234, 0x5678];
const WIDTHS: [u32; 8] = [32, 32, 16, 16, 16, 24, 16, 16];

/// Users 0 and 1 of domain 0 and 2 of domain 1. Roles 0 and 2 are of domain 0,
/// have all contexts and the permissions 0 and 4, and users 0 and 1; role 1 is
/// the same in domain 1, with user 2. The clock is at the first tick of
/// [`TERMS`].
fn with_roles() -> Register {
    let mut register = after(&["enrol 0 0", "enrol 1 0", "enrol 2 1", "clock 305419896"]);
    for (role, domain) in [(0, 0), (1, 1), (2, 0)] {
        let mut play = |line: String| accept_all(&mut register, &[&line]);
        play(format!("found {role} {domain} {ALL}"));
        play(format!("grant {role} 0"));
        play(format!("grant {role} 4"));
    }
    let appoint = ["appoint 0 0", "appoint 1 0", "appoint 0 2", "appoint 1 2", "appoint 2 1"];
    accept_all(&mut register, &appoint);
    register
}

/// The line with which the user makes a capability on this origin.
fn create(user: u8, origin: &str, terms: [u64; 8]) -> String {
    let terms = terms.map(|term| term.to_string()).join(" ");
    format!("create {user} {origin} 1 2 3 {terms}")
}

/// Two capabilities of user 0 on role 0, of which only the second may have
/// other terms.
fn with_pair(other: [u64; 8]) -> Register {
    let mut register = with_roles();
    let lines = [create(0, "role 0", TERMS), create(0, "role 0", other)];
    accept_all(&mut register, &[&lines[0], &lines[1]]);
    register
}

/// Same, asked both ways round, must give this value and leave the register.
fn compares(register: &Register, pair: [u8; 2], value: u64) {
    for [first, second] in [pair, [pair[1], pair[0]]] {
        let mut copy = register.clone();
        let line = format!("same {first} {second}");
        assert_eq!(perform(&mut copy, &line), Ok(value), "{line}");
        assert_eq!(copy, *register, "{line} changed the register");
    }
}

#[test]
fn equal_numbers_are_the_same() {
    compares(&with_pair(TERMS), [0, 1], 1);
}

/// One unit up or down, and every bit, the highest too.
#[test]
fn each_number_decides_alone() {
    for (place, width) in WIDTHS.into_iter().enumerate() {
        let units = [TERMS[place] - 1, TERMS[place] + 1];
        let bits = (0..width).map(|bit| TERMS[place] ^ 1 << bit);
        for number in bits.chain(units) {
            let mut other = TERMS;
            other[place] = number;
            compares(&with_pair(other), [0, 1], 0);
        }
    }
}

/// The numbers of the one are those of the other, at other places.
#[test]
fn each_number_is_compared_with_its_own_kind() {
    let terms = [5, 9, 5, 9, 7, 0b101, 0b11, 0b110];
    for (one, other) in [(2, 3), (2, 4), (3, 4), (5, 6), (5, 7), (6, 7)] {
        let mut register = with_roles();
        let mut swapped = terms;
        swapped.swap(one, other);
        let lines = [create(0, "role 0", terms), create(0, "role 0", swapped)];
        accept_all(&mut register, &[&lines[0], &lines[1]]);
        compares(&register, [0, 1], 0);
    }
}

/// Lives as long, limits that add up to as much, masks with as many bits.
#[test]
fn what_merely_adds_up_is_not_the_same() {
    let base = [7, 9, 5, 6, 7, 0b11, 0b11, 0b11];
    let others = [
        [8, 10, 5, 6, 7, 0b11, 0b11, 0b11],
        [7, 9, 4, 7, 7, 0b11, 0b11, 0b11],
        [7, 9, 5, 5, 8, 0b11, 0b11, 0b11],
        [7, 9, 5, 6, 7, 0b101, 0b11, 0b11],
        [7, 9, 5, 6, 7, 0b11, 0b101, 0b11],
        [7, 9, 5, 6, 7, 0b11, 0b11, 0b101],
    ];
    for other in others {
        let mut register = with_roles();
        let lines = [create(0, "role 0", base), create(0, "role 0", other)];
        accept_all(&mut register, &[&lines[0], &lines[1]]);
        compares(&register, [0, 1], 0);
    }
}

/// Both on roles with all permissions; each of the 32 as an own one.
#[test]
fn each_bit_of_the_authority_decides_alone() {
    let mut register = with_pair(TERMS);
    for permission in (0..32).filter(|permission| ![0, 4].contains(permission)) {
        accept_all(&mut register, &[&format!("grant 0 {permission}")]);
    }
    accept_all(&mut register, &["allow 0 0 1431655765"]);
    for permission in 0..32 {
        let mut other = register.clone();
        let mask = 0x5555_5555_u32 ^ 1 << permission;
        accept_all(&mut other, &[&format!("allow 0 1 {mask}")]);
        compares(&other, [0, 1], 0);
    }
    accept_all(&mut register, &["allow 0 1 1431655765"]);
    compares(&register, [0, 1], 1);
}

#[test]
fn the_domain_decides_alone() {
    let mut register = with_roles();
    let lines = [create(0, "role 0", TERMS), create(2, "role 1", TERMS)];
    accept_all(&mut register, &[&lines[0], &lines[1]]);
    compares(&register, [0, 1], 0);
    accept_all(&mut register, &["allow 0 0 17", "allow 2 1 17"]);
    compares(&register, [0, 1], 0);
    accept_all(&mut register, &["hand 2 0 1"]);
    accept_all(&mut register, &[&create(0, "pass 1", TERMS)]);
    accept_all(&mut register, &["allow 0 2 17"]);
    compares(&register, [0, 2], 0); // a holder of the other domain made it
    compares(&register, [1, 2], 1);
}

/// The domain is that of the roles at the ends, however long the lineages are.
#[test]
fn the_domain_is_that_at_the_end_of_the_lineage() {
    let mut register = with_roles();
    for (user, role, start) in [(0, 0, 0), (2, 1, 3), (0, 2, 6)] {
        for number in start..start + 3 {
            let origin = match number == start {
                true => format!("role {role}"),
                false => format!("pass {}", number - 1),
            };
            let (allow, hand) =
                (format!("allow {user} {number} 1"), format!("hand {user} {user} {number}"));
            accept_all(&mut register, &[&create(user, &origin, TERMS), &allow, &hand]);
        }
    }
    for (first, second) in (0..9).flat_map(|first| (0..9).map(move |second| (first, second))) {
        let equal = (3..6).contains(&first) == (3..6).contains(&second);
        compares(&register, [first, second], equal.into());
    }
}

/// The lines on a pair of the same terms must make it differ in nothing but
/// what `level` makes equal, and same must pass over it.
fn passes_over(register: &mut Register, lines: &[&str], level: fn(&mut Capability)) {
    accept_all(register, lines);
    let mut pair = [*register.capability(0), *register.capability(1)];
    assert_ne!(pair[0], pair[1], "{lines:?}");
    pair.iter_mut().for_each(level);
    assert_eq!(pair[0], pair[1], "{lines:?}");
    compares(register, [0, 1], 1);
}

#[test]
fn holders_and_counts_are_passed_over() {
    let pair = || with_pair(TERMS);
    passes_over(&mut pair(), &["hand 0 0 0", "hand 0 1 1"], |kept| kept.holders = 0);
    let both = ["hand 0 0 0", "hand 0 1 0", "hand 0 2 0"];
    passes_over(&mut pair(), &both, |kept| (kept.holders, kept.hops) = (0, 0));
    let held = ["allow 0 0 1", "allow 0 1 1", "hand 0 0 0", "hand 0 0 1"];
    let mut register = pair();
    accept_all(&mut register, &held);
    passes_over(&mut register, &["open 0 0 pass 0 2 4 3"], |kept| kept.uses = 0);
    let mut register = pair();
    accept_all(&mut register, &held);
    let line = create(0, "pass 1", TERMS).replace("1 2 3", "2 4 3");
    passes_over(&mut register, &[&line], |kept| kept.creations = 0);
}

#[test]
fn a_mark_is_passed_over_and_revoked_ones_are_compared() {
    let mut register = with_pair(TERMS);
    passes_over(&mut register, &["revoke 0 0"], |kept| kept.revoked = false);
    accept_all(&mut register, &["revoke 0 1"]);
    compares(&register, [0, 1], 1);
    for (place, width) in WIDTHS.into_iter().enumerate() {
        let mut other = TERMS;
        other[place] ^= 1 << (width - 1);
        let mut register = with_pair(other);
        accept_all(&mut register, &["revoke 0 0"]);
        compares(&register, [0, 1], 0);
        accept_all(&mut register, &["revoke 0 1"]);
        compares(&register, [0, 1], 0);
    }
}

#[test]
fn creators_and_origins_are_passed_over() {
    for (user, origin) in [(1, "role 0"), (0, "role 2")] {
        let mut register = with_roles();
        let lines = [create(0, "role 0", TERMS), create(user, origin, TERMS)];
        let level: fn(&mut Capability) = match user {
            1 => |kept| kept.creator = 0,
            _ => |kept| kept.origin = Default::default(),
        };
        passes_over(&mut register, &[&lines[0], &lines[1]], level);
    }
}

/// A capability and one derived from it, and that beside one on the role.
#[test]
fn places_in_the_tree_are_passed_over() {
    let mut register = with_pair(TERMS);
    accept_all(&mut register, &["allow 0 0 1", "hand 0 0 0"]);
    let line = create(0, "pass 0", TERMS).replace("1 2 3", "2 4 3");
    accept_all(&mut register, &[&line]);
    let mut lower = *register.capability(2);
    lower.origin = register.capability(1).origin;
    assert_eq!(lower, *register.capability(1));
    compares(&register, [1, 2], 1);
    compares(&register, [0, 2], 0); // no authority yet
    accept_all(&mut register, &["allow 0 2 1"]);
    compares(&register, [0, 2], 1);
    compares(&register, [1, 2], 0);
}

/// Lent roles and own permissions count for the authority that they make, as
/// it is now.
#[test]
fn lent_roles_are_passed_over_where_the_authority_is_equal() {
    let mut register = with_pair(TERMS);
    accept_all(&mut register, &["allow 0 0 17", "allow 0 1 17"]);
    passes_over(&mut register, &["lend 0 1 1"], |kept| kept.lent = 0);
    let mut register = with_pair(TERMS);
    accept_all(&mut register, &["lend 0 0 1", "lend 0 1 1"]);
    passes_over(&mut register, &["allow 0 1 16"], |kept| kept.permissions = 0);
    let mut register = with_pair(TERMS);
    accept_all(&mut register, &["lend 0 0 1", "allow 0 1 1"]);
    compares(&register, [0, 1], 0);
    accept_all(&mut register, &["allow 0 1 16"]);
    compares(&register, [0, 1], 1);
    accept_all(&mut register, &["grant 0 9"]); // it comes with the lent role alone
    compares(&register, [0, 1], 0);
    accept_all(&mut register, &["withdraw 0 9"]);
    compares(&register, [0, 1], 1);
    accept_all(&mut register, &["withdraw 0 4"]);
    compares(&register, [0, 1], 1);
    accept_all(&mut register, &["grant 0 4"]);
    compares(&register, [0, 1], 0);
}

#[test]
fn an_amended_limit_is_compared_as_it_is_now() {
    let mut register = with_pair(TERMS);
    for (line, value) in [("amend 0 0 -1", 0), ("amend 0 1 -1", 1), ("amend 0 1 1", 0)] {
        accept_all(&mut register, &[line]);
        compares(&register, [0, 1], value);
    }
    accept_all(&mut register, &["amend 0 0 1"]);
    compares(&register, [0, 1], 1);
}

/// Capability 1 is on capability 0, and 2 on 1, with the use limits 9, 9 and 8;
/// 3 is on the role, with 4. All else is equal.
fn with_chain() -> Register {
    let mut register = with_roles();
    let limited = |origin, limit| {
        let mut terms = TERMS;
        (terms[2], terms[5], terms[6], terms[7]) = (limit, 2, 4, 8);
        create(0, origin, terms)
    };
    let origins = ["role 0", "pass 0", "pass 1", "role 0"];
    for (number, (origin, limit)) in origins.into_iter().zip([9, 9, 8, 4]).enumerate() {
        let (allow, hand) = (format!("allow 0 {number} 1"), format!("hand 0 0 {number}"));
        accept_all(&mut register, &[&limited(origin, limit), &allow, &hand]);
    }
    register
}

#[test]
fn a_limit_cut_from_above_is_compared() {
    let mut register = with_chain();
    compares(&register, [1, 3], 0);
    compares(&register, [2, 3], 0);
    accept_all(&mut register, &["amend 0 0 -5"]);
    for pair in [[0, 3], [1, 3], [2, 3], [1, 2]] {
        compares(&register, pair, 1);
    }
    accept_all(&mut register, &["amend 0 0 1"]); // those below stay
    for (pair, value) in [([0, 3], 0), ([1, 3], 1), ([2, 3], 1)] {
        compares(&register, pair, value);
    }
}

/// What is revoked is cut too, and so is what lies below it.
#[test]
fn a_limit_cut_below_a_revoked_capability_is_compared() {
    let mut register = with_chain();
    accept_all(&mut register, &["revoke 0 1"]);
    assert!(register.capability(1).revoked && register.capability(2).revoked);
    compares(&register, [1, 2], 0);
    refuses(&register, "amend 0 1 -1", 7);
    accept_all(&mut register, &["amend 0 0 -1"]);
    for (pair, value) in [([0, 1], 1), ([1, 2], 1), ([1, 3], 0), ([2, 3], 0)] {
        compares(&register, pair, value);
    }
    accept_all(&mut register, &["amend 0 0 -4"]);
    for pair in [[0, 1], [0, 2], [1, 3], [2, 3]] {
        compares(&register, pair, 1);
    }
}

#[test]
fn the_longer_life_is_told_apart() {
    let mut longer = TERMS;
    longer[1] += 1;
    let mut register = with_pair(longer);
    for number in [0, 1] {
        let lines = [
            format!("allow 0 {number} 16"),
            format!("hand 0 0 {number}"),
            format!("open {number} 0 pass {number} 2 4 3"),
        ];
        accept_all(&mut register, &[&lines[0], &lines[1], &lines[2]]);
    }
    compares(&register, [0, 1], 0);
    accept_all(&mut register, &[&format!("clock {}", TERMS[1])]);
    accepts(&register, "check 0 4 2 4 3", 0);
    accepts(&register, "check 1 4 2 4 3", 1);
}

#[test]
fn refusals_come_as_before() {
    let register = with_pair(TERMS);
    for line in ["same 256 0", "same 0 256", "same 256 2", "same 2 256", "same 4294967295 0"] {
        refuses(&register, line, 2);
    }
    for line in ["same 0 2", "same 2 0", "same 2 2", "same 255 255"] {
        refuses(&register, line, 3);
    }
    refuses(&Register::fresh(), "same 0 0", 3);
    compares(&register, [0, 0], 1);
    compares(&register, [1, 1], 1);
}

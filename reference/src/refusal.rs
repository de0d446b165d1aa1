//! The answers of calls (§5.1.2) and the numbers of the refusals (§5.2.1).

/// A value, or the number of a refusal.
pub type Answer = Result<u64, u8>;

/// The line yields no request (§9.1).
pub const MALFORMED: u8 = 1;
/// A number is out of its range (§5.2.3).
pub const OUT_OF_RANGE: u8 = 2;
/// What is named is not there (§5.2.4).
pub const NOT_THERE: u8 = 3;
/// Nothing would change.
pub const NO_CHANGE: u8 = 4;
/// The user is not of the role's domain (§6.5.1).
pub const DOMAINS_DIFFER: u8 = 5;
/// The user is not the one who may ask this (appointed, holder, creator), or
/// the authority lacks create.
pub const NOT_ENTITLED: u8 = 6;
/// The capability named is revoked, as a role cannot be (§5.2.5).
pub const REVOKED: u8 = 7;
/// The origin or target is a capability and not in life (§3.3.2).
pub const OUT_OF_LIFE: u8 = 8;
/// The origin or target does not admit the context (§3.3.4).
pub const NOT_ADMITTED: u8 = 9;
/// Creations, hops or uses are at their limit, or a use limit would fall below
/// 0.
pub const AT_LIMIT: u8 = 10;
/// A life, a limit or a mask exceeds what the origin has or may give.
pub const EXCEEDS_ORIGIN: u8 = 11;
/// There is no place for another capability (§6.8.1).
pub const FULL: u8 = 12;
/// The tick is before the clock (§6.7.1).
pub const CLOCK_BACKWARDS: u8 = 13;
/// The bytes are not an image (§8.5).
pub const BAD_IMAGE: u8 = 14;
/// The register given breaks a rule (§4.1.1).
pub const NOT_WELL_FORMED: u8 = 15;
/// The buffer is too short (§8.4.1, §11.2.1).
pub const BUFFER_TOO_SHORT: u8 = 16;

/// Refuses with `number` where `applies` holds. A call is a list of these in
/// the order of its paragraph, and the first that applies counts (§5.2.2).
pub fn refuse_if(applies: bool, number: u8) -> Result<(), u8> {
    if applies {
        Err(number)
    } else {
        Ok(())
    }
}

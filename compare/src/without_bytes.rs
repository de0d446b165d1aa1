//! Demands on how many of the calls had an image without bytes.

use crate::answers::Answers;
use crate::tally::Tally;

/// How often such a call must be accepted, and refused with each number or by
/// the call itself.
pub struct Least {
    pub accepted: u64,
    pub refused_by_call: u64,
    pub malformed: u64,
    pub area_too_short: u64,
}

/// Prints the answers to these calls, and makes a failure of each kind that was
/// given less often than it must.
pub fn require(tally: &mut Tally, answers: &Answers, least: &Least) {
    println!("{} calls on images without bytes: {answers}", answers.total());
    let kinds = [
        (answers.accepted(), least.accepted, "accepted"),
        (answers.refused_by_call(), least.refused_by_call, "refused by the call"),
        (answers.refused(1), least.malformed, "refused with 1"),
        (answers.refused(16), least.area_too_short, "refused with 16"),
    ];
    for (met, least, kind) in kinds {
        tally.require_often(met, least, &format!("a call on an image without bytes, {kind}"));
    }
}

//! A setup body: one or more exclusives, with no durations.

use crate::item::exclusive_at;
use crate::refusal::{Clause, Refusal};

/// Checks a setup body; places are counted from its start.
pub fn check_setup(body: &[u8]) -> Result<(), Refusal> {
    if body.is_empty() {
        return Err(Refusal::at(Clause::SetupEmpty, 0));
    }
    let mut at = 0;
    while at < body.len() {
        at = message_end(body, at).map_err(|clause| Refusal::at(clause, at))?;
    }
    Ok(())
}

/// The end of the exclusive at `at`; whatever is wrong with it, the message is blamed.
fn message_end(body: &[u8], at: usize) -> Result<usize, Clause> {
    match (body[at], body.get(at + 1)) {
        (0xFF, Some(0xF0)) => {}
        (0xFF, None) => return Err(Clause::SetupCut),
        _ => return Err(Clause::SetupNotExclusive),
    }
    match exclusive_at(body, at) {
        Ok(message) => Ok(message.end),
        Err(refusal) => Err(match refusal.clause {
            Clause::ExclusiveSizeUnderThree => Clause::SetupSizeUnderThree,
            Clause::ExclusiveWithoutEnd => Clause::SetupWithoutEnd,
            _ => Clause::SetupCut,
        }),
    }
}

//! A note's pitch, in semitones from the A of 440 Hz.

use crate::item::shift_of;
use crate::refusal::{Clause, Refusal};

pub fn pitch(event: u8, shift: u8) -> Result<i32, Refusal> {
    let note = i32::from(event & 0x0F);
    if !(1..=12).contains(&note) {
        return Err(Refusal::at(Clause::PitchNotNote, 0));
    }
    let octave = i32::from((event >> 4) & 3);
    let shift = shift_of(shift).ok_or(Refusal::at(Clause::PitchShiftReserved, 0))?;
    Ok(12 * (octave - 2) + (note - 9) + 12 * shift)
}

//! The listing: what the first readable track plays, as lines of text.

use crate::file::read;
use crate::item::{Kind, Message};
use crate::numbers::LARGEST;
use crate::pitch::pitch;
use crate::play::{play_track, Played};
use crate::refusal::{Clause, Refusal};
use std::fmt::Write;

/// Rows in each of the listing's tables.
pub const TABLE_ROWS: usize = 4_096;

const SHORT_MODULATION: [u8; 14] =
    [0x00, 0x08, 0x10, 0x18, 0x20, 0x28, 0x30, 0x38, 0x40, 0x48, 0x50, 0x60, 0x70, 0x7F];
const SHORT_PITCH_BEND: [u8; 14] =
    [0x08, 0x10, 0x18, 0x20, 0x28, 0x30, 0x38, 0x40, 0x48, 0x50, 0x58, 0x60, 0x68, 0x70];
const SHORT_EXPRESSION: [u8; 14] =
    [0x00, 0x1F, 0x27, 0x2F, 0x37, 0x3F, 0x47, 0x4F, 0x57, 0x5F, 0x67, 0x6F, 0x77, 0x7F];

/// The listing of a whole input.
pub fn listing(input: &[u8]) -> Result<String, Refusal> {
    if input.len() > LARGEST {
        return Err(Refusal::at(Clause::LengthPastLargest, 0));
    }
    let melody = read(input, input.len() as u32, TABLE_ROWS)?;
    let first = melody.tracks.first();
    let (_, track) = first.ok_or(Refusal::at(Clause::NoReadableTrack, 0))?;
    let played = play_track(track, TABLE_ROWS)?;
    Ok(lines(&played, track.base_d.milliseconds))
}

fn lines(played: &Played, milliseconds: u64) -> String {
    let mut text = String::from("step ms ch kind value gate\n");
    let mut shifts = [0; 4];
    for (step, message) in &played.messages {
        if message.kind == Kind::OctaveShift {
            shifts[usize::from(message.channel)] = message.value;
        }
        let channel = match message.kind {
            Kind::Exclusive => String::from("-"),
            _ => message.channel.to_string(),
        };
        let (kind, gate, time) = (kind_name(message.kind), message.gate, step * milliseconds);
        let value = value_of(message, &shifts);
        let _ = writeln!(text, "{step} {time} {channel} {kind} {value} {gate}");
    }
    let _ = writeln!(text, "end {} {}", played.end, played.end * milliseconds);
    text
}

fn kind_name(kind: Kind) -> &'static str {
    match kind {
        Kind::Note => "note",
        Kind::Wave => "wave",
        Kind::Program => "program",
        Kind::Bank => "bank",
        Kind::OctaveShift => "octaveshift",
        Kind::Modulation | Kind::ShortModulation => "modulation",
        Kind::PitchBend | Kind::ShortPitchBend => "pitchbend",
        Kind::Volume => "volume",
        Kind::Pan => "pan",
        Kind::Expression | Kind::ShortExpression => "expression",
        Kind::Exclusive => "exclusive",
    }
}

/// The printed value; `shifts` holds each channel's last shift byte.
fn value_of(message: &Message, shifts: &[u8; 4]) -> i32 {
    let standard = |table: &[u8; 14]| i32::from(table[usize::from(message.value) - 1]);
    match message.kind {
        Kind::Note => {
            let shift = shifts[usize::from(message.channel)];
            pitch(message.value, shift).expect("a played note has a pitch")
        }
        Kind::ShortModulation => standard(&SHORT_MODULATION),
        Kind::ShortPitchBend => standard(&SHORT_PITCH_BEND),
        Kind::ShortExpression => standard(&SHORT_EXPRESSION),
        _ => i32::from(message.value),
    }
}

//! The plain form: what a track plays, as one sequence body without points,
//! whose only end mark is its last item.

use crate::file::open;
use crate::item::{Message, Sequence, END_MARK};
use crate::numbers::LARGEST;
use crate::play::{Performance, Section};
use crate::refusal::{Clause, Refusal};
use crate::track::Track;

/// The longest duration.
const LONGEST: u64 = 16_511;

/// A longest duration with a NOP.
const LONG_REST: [u8; 4] = [0xFF, 0x7F, 0xFF, 0x00];

const NOP: [u8; 2] = [0xFF, 0x00];

/// A gap as long rests and a last part of at most the longest duration.
fn split(gap: u64) -> (u64, u64) {
    let long_rests = gap.saturating_sub(1) / LONGEST;
    (long_rests, gap - long_rests * LONGEST)
}

fn duration_length(duration: u64) -> u64 {
    match duration {
        0..=127 => 1,
        _ => 2,
    }
}

/// The bytes a gap before a message takes.
fn gap_length(gap: u64) -> u64 {
    let (long_rests, last) = split(gap);
    4 * long_rests + duration_length(last)
}

/// The bytes a rest before the end takes.
fn rest_length(rest: u64) -> u64 {
    match rest {
        0 => 0,
        _ => gap_length(rest) + NOP.len() as u64,
    }
}

/// The numbers of a section that its plain form needs: bytes from the first
/// message's event to the last one's, and the silence on both sides.
struct Outline {
    bytes: u64,
    silence_before: u64,
    silence_after: u64,
    lasts: u64,
}

impl Outline {
    fn of(section: &Section, sequence: &Sequence) -> Outline {
        let mut outline =
            Outline { bytes: 0, silence_before: 0, silence_after: 0, lasts: section.lasts };
        let mut last_step = None;
        for (step, message) in section.played(sequence) {
            match last_step {
                None => outline.silence_before = step,
                Some(last) => outline.bytes += gap_length(step - last),
            }
            outline.bytes += (message.end - message.start) as u64;
            last_step = Some(step);
        }
        outline.silence_after = section.lasts - last_step.unwrap_or(0);
        outline
    }
}

/// How long the plain form is, without writing it.
pub fn plain_length(performance: &Performance, sequence: &Sequence) -> u64 {
    let sections = performance.sections.iter();
    let outlines: Vec<Outline> = sections.map(|section| Outline::of(section, sequence)).collect();
    let mut length = END_MARK.len() as u64;
    let mut silence = 0;
    for index in &performance.order {
        let outline = &outlines[*index];
        if outline.bytes == 0 {
            silence += outline.lasts;
        } else {
            length += gap_length(silence + outline.silence_before) + outline.bytes;
            silence = outline.silence_after;
        }
    }
    length + rest_length(silence)
}

fn write_long_rests(gap: u64, plain: &mut Vec<u8>) -> u64 {
    let mut left = gap;
    while left > LONGEST {
        plain.extend(LONG_REST);
        left -= LONGEST;
    }
    left
}

/// Writes a duration or gate time of at most 16,511.
pub fn write_duration(duration: u64, plain: &mut Vec<u8>) {
    match duration {
        0..=127 => plain.push(duration as u8),
        _ => plain.extend([128 + ((duration - 128) / 128) as u8, ((duration - 128) % 128) as u8]),
    }
}

/// Writes played messages and the end; `body` holds their events.
pub fn write_plain(body: &[u8], messages: &[(u64, Message)], end: u64) -> Vec<u8> {
    let mut plain = Vec::new();
    let mut before = 0;
    for (step, message) in messages {
        let last_part = write_long_rests(step - before, &mut plain);
        write_duration(last_part, &mut plain);
        plain.extend(&body[message.start..message.end]);
        before = *step;
    }
    let last_part = write_long_rests(end - before, &mut plain);
    if last_part > 0 {
        write_duration(last_part, &mut plain);
        plain.extend(NOP);
    }
    plain.extend(END_MARK);
    plain
}

/// Flattens a readable track into a buffer of that many bytes (17, 18).
pub fn flatten_track(file: &[u8], track: &Track, room: usize) -> Result<Vec<u8>, Refusal> {
    let performance = Performance::of(track)?;
    let sequence = &track.sequence;
    let length = plain_length(&performance, sequence);
    let refused = |clause| Err(Refusal::at(clause, track.header.place));
    if length > LARGEST as u64 {
        return refused(Clause::PlainOverLargest);
    }
    if length > room as u64 {
        return refused(Clause::PlainOverBuffer);
    }
    let messages = performance.messages(sequence);
    Ok(write_plain(track.body.of(file), &messages, performance.end()))
}

/// Flattens the track with that row number (1 to 14, 16, 17, 18).
pub fn flatten(buffer: &[u8], stated: u32, row: u32, room: usize) -> Result<Vec<u8>, Refusal> {
    let melody = open(buffer, stated)?;
    flatten_track(buffer, melody.track(row)?, room)
}

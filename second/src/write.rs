//! The writer: whole files of score tracks, and bodies of items.

use crate::description::{BodyDescription, Description, ItemTable, ScoreTrack};
use crate::frame::{chunk, whole_file, FRAME_BYTES};
use crate::item::{read_sequence, Voice};
use crate::numbers::LARGEST;
use crate::refusal::{Clause, Refusal};
use crate::time_base::TimeBase;
use crate::write_seek::{check_entries, check_points, seek_body};
use std::collections::HashSet;

/// The most tracks of a file that is written.
const MOST_TRACKS: usize = 16;

/// Writes a file into that many bytes of room: 6, 7, then track by track 8, 11
/// and 21 to 23, 12, 13 and 14, then 24.
pub fn write_file(description: &Description, room: usize) -> Result<Vec<u8>, Refusal> {
    let tracks = &description.tracks;
    check_numbers(tracks)?;
    if tracks.is_empty() {
        return Err(Refusal::at(Clause::NoTrackGiven, 0));
    }
    let mut list = chunk(b"CNTI", &description.contents);
    for (index, track) in tracks.iter().enumerate() {
        let bytes = track_chunk(track).map_err(|clause| Refusal::at(clause, index))?;
        list.extend(bytes);
    }
    check_size(tracks.len(), FRAME_BYTES + list.len(), room)?;
    Ok(whole_file(&list))
}

/// Refusal 24.
fn check_size(tracks: usize, length: usize, room: usize) -> Result<(), Refusal> {
    let clause = if tracks > MOST_TRACKS {
        Clause::TracksOverSixteen
    } else if length > LARGEST {
        Clause::FileOverLargest
    } else if length > room {
        Clause::FileOverRoom
    } else {
        return Ok(());
    };
    Err(Refusal::at(clause, 0))
}

/// Refusal 6 at the first track whose number stood before.
fn check_numbers(tracks: &[ScoreTrack]) -> Result<(), Refusal> {
    let mut seen = HashSet::new();
    match tracks.iter().position(|track| !seen.insert(track.number)) {
        Some(index) => Err(Refusal::at(Clause::NumberAgain, index)),
        None => Ok(()),
    }
}

fn track_chunk(track: &ScoreTrack) -> Result<Vec<u8>, Clause> {
    let phrases = check_fixed(track.fixed)?;
    let body = body_of(&track.table, Voice::Score).map_err(|refusal| refusal.clause)?;
    check_entries(&track.entries, phrases)?;
    let sequence = read_sequence(&body, Voice::Score).expect("items without faults are a body");
    check_points(&track.entries, &sequence, phrases)?;
    let seek = match track.entries.is_empty() {
        true => Vec::new(),
        false => chunk(b"MspI", &seek_body(&track.entries, phrases)),
    };
    let inside = [&track.fixed[..], &seek, &chunk(b"Mtsq", &body)].concat();
    Ok(chunk(&[b'M', b'T', b'R', track.number], &inside))
}

/// Refusal 8; whether the track is one of phrases.
fn check_fixed(fixed: [u8; 6]) -> Result<bool, Clause> {
    let [format, sequence_type, code_d, code_g, ..] = fixed;
    match format {
        0 => {}
        1 | 2 => return Err(Clause::FixedFormatClosed),
        _ => return Err(Clause::FixedFormatOverTwo),
    }
    if sequence_type > 1 {
        return Err(Clause::FixedSequenceType);
    }
    TimeBase::from_code(code_d).ok_or(Clause::FixedTimeBaseD)?;
    TimeBase::from_code(code_g).ok_or(Clause::FixedTimeBaseG)?;
    Ok(sequence_type == 1)
}

/// The body that the items make: 11, or the first item at fault (21 to 23) by its
/// index.
fn body_of(table: &ItemTable, voice: Voice) -> Result<Vec<u8>, Refusal> {
    if table.items.is_empty() {
        return Err(Refusal::at(Clause::NoItems, 0));
    }
    let mut body = Vec::new();
    for (index, item) in table.items.iter().enumerate() {
        let written = item.write(voice, &table.source, &mut body);
        written.map_err(|clause| Refusal::at(clause, index))?;
    }
    Ok(body)
}

/// Writes a body into that many bytes of room: 11 and 21 to 23, then 24.
pub fn write_body(description: &BodyDescription, room: usize) -> Result<Vec<u8>, Refusal> {
    let body = body_of(&description.table, description.voice)?;
    if body.len() > LARGEST {
        return Err(Refusal::at(Clause::BodyOverLargest, 0));
    }
    match body.len() > room {
        true => Err(Refusal::at(Clause::BodyOverRoom, 0)),
        false => Ok(body),
    }
}

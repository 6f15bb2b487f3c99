//! Checks of answers against each other: rows tile the file, and a plain form
//! plays what its track plays.

use crate::file::{Melody, Row};
use crate::item::{read_sequence, Kind, Message, Voice};
use crate::plain::{plain_length, write_plain};
use crate::play::{play_track, word_of, Performance, Section};
use crate::track::Track;

pub fn hold(holds: bool, what: &str) -> Result<(), String> {
    match holds {
        true => Ok(()),
        false => Err(String::from(what)),
    }
}

/// Every container is filled by its chunks, but for its fixed bytes and the
/// check code.
pub fn rows_tile(melody: &Melody, length: usize) -> Result<(), String> {
    hold(fills(melody, 0, 8, length - 2), "the top-level list does not fill the file")?;
    for (number, track) in &melody.tracks {
        let body = track.header.body();
        let filled = fills(melody, *number, body.start + 6, body.end);
        hold(filled, "a track's list does not fill it")?;
    }
    let containers_first =
        melody.rows.iter().enumerate().skip(1).all(|(number, row)| row.container < number);
    hold(containers_first, "a container stands after its contents")
}

fn fills(melody: &Melody, container: usize, start: usize, end: usize) -> bool {
    let inside = |row: &&Row| row.container == container;
    let mut at = start;
    for row in melody.rows.iter().skip(1).filter(inside) {
        if row.place != at {
            return false;
        }
        at = row.place + 8 + row.size;
    }
    at == end
}

/// A message without its place: its word, or an exclusive's bytes.
fn essence(message: &Message, body: &[u8]) -> (u32, Vec<u8>) {
    match message.kind {
        Kind::Exclusive => (0, body[message.start..message.end].to_vec()),
        _ => (word_of(message), Vec::new()),
    }
}

/// Plays the plain form as a stream without points, and flattens it again.
pub fn plain_plays_the_same(file: &[u8], track: &Track, plain: &[u8]) -> Result<(), String> {
    let said = |refusal: crate::refusal::Refusal| refusal.text();
    let performance = Performance::of(track).map_err(said)?;
    let length = plain_length(&performance, &track.sequence);
    hold(length == plain.len() as u64, "the plain form has another length than worked out")?;
    let (messages, end) = play_stream(plain, track.voice)?;
    let played = play_track(track, plain.len()).map_err(said)?;
    hold(played.end == end, "the plain form ends elsewhere")?;
    let of_plain = messages.iter().map(|(step, message)| (*step, essence(message, plain)));
    let body = track.body.of(file);
    let of_track = played.messages.iter().map(|(step, message)| (*step, essence(message, body)));
    hold(of_plain.eq(of_track), "the plain form plays something else")?;
    let again = write_plain(plain, &messages, end);
    hold(again == plain, "the plain form of the plain form is another")
}

fn play_stream(body: &[u8], voice: Voice) -> Result<(Vec<(u64, Message)>, u64), String> {
    let sequence = read_sequence(body, voice)
        .map_err(|refusal| format!("the plain form is no sequence: {}", refusal.text()))?;
    let marked_at_end = sequence.items.last() == sequence.marks.last();
    hold(marked_at_end && sequence.marks.len() == 1, "the plain form has other end marks")?;
    let section = Section::whole(&sequence);
    let messages = section.played(&sequence).map(|(step, message)| (step, *message)).collect();
    Ok((messages, section.lasts))
}

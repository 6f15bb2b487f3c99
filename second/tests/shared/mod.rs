//! Small files put together by hand, for the tests.
#![allow(dead_code)]

use second::file::open;
use second::frame::{chunk, whole_file};
use second::plain::flatten;
use second::play::{play, word_of};

pub const STREAM: u8 = 0;
pub const PHRASES: u8 = 1;

pub type Leaf<'a> = (&'a [u8; 4], &'a [u8]);

pub fn leaves(list: &[Leaf]) -> Vec<u8> {
    list.iter().flat_map(|(id, body)| chunk(id, body)).collect()
}

pub fn score_track(sequence_type: u8, list: &[Leaf]) -> Vec<u8> {
    chunk(b"MTR0", &[&[0, sequence_type, 2, 2, 0, 0][..], &leaves(list)].concat())
}

pub fn pcm_track(sequence_type: u8, list: &[Leaf]) -> Vec<u8> {
    chunk(b"ATR0", &[&[0, sequence_type, 0, 0, 2, 2][..], &leaves(list)].concat())
}

/// A file of a 5-byte `CNTI` and these chunks.
pub fn file_of(chunks: &[Vec<u8>]) -> Vec<u8> {
    whole_file(&[chunk(b"CNTI", &[0; 5]), chunks.concat()].concat())
}

/// The track's header is at 21, the first sub-chunk's body at 43.
pub fn score(sequence_type: u8, list: &[Leaf]) -> Vec<u8> {
    file_of(&[score_track(sequence_type, list)])
}

pub fn pcm(sequence_type: u8, list: &[Leaf]) -> Vec<u8> {
    file_of(&[pcm_track(sequence_type, list)])
}

/// Number and place of the refusal of a file, or (0, 0).
pub fn refusal(file: &[u8]) -> (u32, usize) {
    outcome(open(file, file.len() as u32))
}

pub fn outcome<T>(answer: Result<T, second::refusal::Refusal>) -> (u32, usize) {
    match answer {
        Ok(_) => (0, 0),
        Err(refusal) => (refusal.number(), refusal.place),
    }
}

/// The played rows and the end of the track in row 2.
pub fn played(file: &[u8]) -> (Vec<(u64, u32)>, u64) {
    let played = play(file, file.len() as u32, 2, 70_000).expect("it plays");
    let rows = played.messages.iter().map(|(step, message)| (*step, word_of(message)));
    (rows.collect(), played.end)
}

pub fn steps(file: &[u8]) -> (Vec<u64>, u64) {
    let (rows, end) = played(file);
    (rows.iter().map(|(step, _)| *step).collect(), end)
}

pub fn plain(file: &[u8]) -> Vec<u8> {
    flatten(file, file.len() as u32, 2, 70_000).expect("it flattens")
}

/// A seek entry for a stream's `st` or `sp`.
pub fn point(tag: &[u8; 2], address: u32) -> Vec<u8> {
    [&tag[..], b":", &address.to_be_bytes()].concat()
}

pub fn phrase(letter: u8, start: u32, stop: u32) -> Vec<u8> {
    [&[b'P', letter, b':'][..], &start.to_be_bytes(), &stop.to_be_bytes()].concat()
}

pub fn entries(list: &[Vec<u8>]) -> Vec<u8> {
    list.join(&b","[..])
}

/// An end mark.
pub const MARK: [u8; 4] = [0; 4];

/// A note of three bytes; `name` is the last four bits of its value.
pub fn note(duration: u8, name: u8) -> Vec<u8> {
    vec![duration, 0x20 | name, 0x14]
}

/// Three bytes too.
pub fn rest(duration: u8) -> Vec<u8> {
    vec![duration, 0xFF, 0x00]
}

pub fn joined(parts: &[&[u8]]) -> Vec<u8> {
    parts.concat()
}

/// A stream, with a seek body unless it is empty.
pub fn stream(seek: &[u8], body: &[u8]) -> Vec<u8> {
    match seek {
        [] => score(STREAM, &[(b"Mtsq", body)]),
        _ => score(STREAM, &[(b"MspI", seek), (b"Mtsq", body)]),
    }
}

/// A phrase track with that order list.
pub fn song(phrases: &[Vec<u8>], list: &[u8], body: &[u8]) -> Vec<u8> {
    let seek = entries(&[phrases, &[[b"SL:", list].concat()]].concat());
    score(PHRASES, &[(b"MspI", &seek), (b"Mtsq", body)])
}

/// The steps and names of the notes that play, and the end.
pub fn notes(file: &[u8]) -> (Vec<(u64, u32)>, u64) {
    let (rows, end) = played(file);
    (rows.iter().map(|(step, word)| (*step, word >> 17 & 0x0F)).collect(), end)
}

/// Phrases a, b and c, with a mark after each; S runs from the second over its
/// mark into the third.
pub fn karaoke(list: &[u8]) -> Vec<u8> {
    let line = |name: u8| [note(1, name), rest(9), MARK.to_vec()].concat();
    let body = [line(1), line(2), line(3)].concat();
    let phrases = [phrase(b'a', 0, 6), phrase(b'b', 10, 16), phrase(b'c', 20, 26)];
    song(&[&phrases[..], &[phrase(b'S', 10, 26)]].concat(), list, &body)
}

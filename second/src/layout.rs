//! Files in the writer's layout: five bytes of contents, then nothing but score
//! tracks, each with its seek chunk or none and its sequence chunk, with no setup
//! and no final comma, at most sixteen of them, and the right check code.

use crate::description::{Description, ItemTable, ScoreTrack, SeekEntry};
use crate::file::{Melody, Row};
use crate::give::{entries, items};
use crate::item::Voice;
use crate::track::Track;

/// What a file in that layout is written from, as the program's own operations
/// give it; none for another file.
pub fn description_of(file: &[u8], melody: &Melody) -> Option<Description> {
    if !melody.verdict || !is_laid_out(melody) || melody.tracks.len() > 16 {
        return None;
    }
    let contents = file.get(16..21)?.try_into().ok()?;
    let tracks = melody.tracks.iter().map(|(row, track)| track_of(file, *row as u32, track));
    Some(Description { contents, tracks: tracks.collect::<Option<_>>()? })
}

/// Five bytes of contents and readable score tracks of the right sub-chunks.
fn is_laid_out(melody: &Melody) -> bool {
    let in_file = |row: &&Row| row.container == 0;
    let mut top = melody.rows.iter().skip(1).filter(in_file);
    let contents = top.next().is_some_and(|row| row.size == 5);
    let tracks = &melody.tracks;
    contents && top.count() == tracks.len() && tracks.iter().all(|(_, track)| has_layout(track))
}

fn has_layout(track: &Track) -> bool {
    let ids: Vec<&[u8; 4]> = track.chunks.iter().map(|chunk| &chunk.id).collect();
    let right_chunks = matches!(ids[..], [b"Mtsq"] | [b"MspI", b"Mtsq"]);
    track.voice == Voice::Score && right_chunks
}

fn track_of(file: &[u8], row: u32, track: &Track) -> Option<ScoreTrack> {
    let stated = file.len() as u32;
    let entries = entries(file, stated, row, usize::MAX).ok()?;
    if has_final_comma(track, &entries) {
        return None;
    }
    let items = items(file, stated, row, usize::MAX).ok()?;
    let body = track.header.body();
    Some(ScoreTrack {
        number: track.header.id[3],
        fixed: file.get(body.start..body.start + 6)?.try_into().ok()?,
        entries,
        table: ItemTable { items, source: track.body.of(file).to_vec() },
    })
}

/// Whether a comma stands behind the last entry. Its data may end in a comma's
/// byte too, so the bytes are counted.
fn has_final_comma(track: &Track, entries: &[SeekEntry]) -> bool {
    let data = |entry: &SeekEntry| match entry.kind {
        SeekEntry::PHRASE => 8,
        SeekEntry::LIST => entry.letters.len(),
        _ if track.phrases => 1,
        _ => 4,
    };
    let with_commas: usize = entries.iter().map(|entry| 3 + data(entry) + 1).sum();
    track.chunks.iter().any(|chunk| &chunk.id == b"MspI" && chunk.size == with_commas)
}

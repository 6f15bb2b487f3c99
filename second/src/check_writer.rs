//! Checks of what the writer gives: it reads back as what was put in, and what
//! was read is written as it was.

use crate::check::hold;
use crate::description::{BodyDescription, Description, ItemTable, ScoreTrack, SeekEntry};
use crate::file::{open, Melody};
use crate::give::{entries_of, items_of};
use crate::item::{read_sequence, Sequence};
use crate::layout::description_of;
use crate::numbers::Id;
use crate::refusal::Refusal;
use crate::track::Track;
use crate::word::{Word, WordItem};
use crate::write::{write_body, write_file};

fn said(what: &str, refusal: Refusal) -> String {
    format!("{what}: {}", refusal.text().trim_end())
}

/// A written file is accepted with verdict yes, and holds what was put in.
pub fn file_reads_back(description: &Description, file: &[u8]) -> Result<(), String> {
    let melody = open(file, file.len() as u32)
        .map_err(|refusal| said("the written file is refused", refusal))?;
    hold(melody.verdict, "the written file has the verdict no")?;
    hold(chunks_of(&melody) == chunks_due(description), "the written file has other chunks")?;
    let contents = file.get(16..16 + melody.rows[1].size);
    hold(contents == Some(&description.contents), "the written file has other contents")?;
    for (track, (_, read)) in description.tracks.iter().zip(&melody.tracks) {
        track_reads_back(file, track, read)?;
    }
    Ok(())
}

/// The IDs of the rows with their containers.
fn chunks_of(melody: &Melody) -> Vec<(Id, usize)> {
    melody.rows.iter().map(|row| (row.id, row.container)).collect()
}

/// The same for what is to be written.
fn chunks_due(description: &Description) -> Vec<(Id, usize)> {
    let mut chunks = vec![(*b"MMMD", 0), (*b"CNTI", 0)];
    for track in &description.tracks {
        let container = chunks.len();
        chunks.push(([b'M', b'T', b'R', track.number], 0));
        if !track.entries.is_empty() {
            chunks.push((*b"MspI", container));
        }
        chunks.push((*b"Mtsq", container));
    }
    chunks
}

fn track_reads_back(file: &[u8], track: &ScoreTrack, read: &Track) -> Result<(), String> {
    let fixed = file.get(read.header.place + 8..read.header.place + 14);
    hold(fixed == Some(&track.fixed), "a written track has other fixed bytes")?;
    let entries: Vec<SeekEntry> = track.entries.iter().map(used_fields).collect();
    hold(entries_of(&read.seek) == entries, "a written track has other seek entries")?;
    let same = are_items(&track.table, &read.sequence, read.body.of(file));
    hold(same, "a written track has other items")
}

/// The entry with 0 in the fields that it does not use.
fn used_fields(entry: &SeekEntry) -> SeekEntry {
    match entry.kind {
        SeekEntry::PHRASE => entry.clone(),
        _ => SeekEntry { letter: 0, to: 0, ..entry.clone() },
    }
}

/// Whether these are the body's items, exclusives by their bytes.
fn are_items(table: &ItemTable, sequence: &Sequence, body: &[u8]) -> bool {
    let given = table.items.iter().map(|item| essence(*item, &table.source));
    let read = items_of(sequence);
    given.eq(read.iter().map(|item| essence(*item, body)))
}

/// An item with the bytes of its exclusive in the place of where they stand.
fn essence(item: WordItem, source: &[u8]) -> (u32, u32, &[u8]) {
    let bytes = item.word.exclusive_bytes(source).unwrap_or(&[]);
    match item.word.kind() == Word::exclusive(0, 0).kind() {
        true => (item.duration, item.word.kind(), bytes),
        false => (item.duration, item.word.0, &[]),
    }
}

/// A written body reads back as its items.
pub fn body_reads_back(description: &BodyDescription, body: &[u8]) -> Result<(), String> {
    let sequence = read_sequence(body, description.voice)
        .map_err(|refusal| said("the written body is refused", refusal))?;
    let same = are_items(&description.table, &sequence, body);
    hold(same, "the written body has other items")
}

/// The items of a track of either voice are written as the body they were read
/// from.
pub fn body_writes_back(file: &[u8], track: &Track) -> Result<(), String> {
    let body = track.body.of(file);
    let table = ItemTable { items: items_of(&track.sequence), source: body.to_vec() };
    let written = write_body(&BodyDescription { voice: track.voice, table }, body.len())
        .map_err(|refusal| said("the items of a track are refused", refusal))?;
    hold(written == body, "the items of a track are written as another body")
}

/// A file in the writer's layout is written again, byte for byte, from what was
/// read; tells whether it is one.
pub fn layout_writes_back(file: &[u8], melody: &Melody) -> Result<bool, String> {
    let Some(description) = description_of(file, melody) else { return Ok(false) };
    let written = write_file(&description, file.len())
        .map_err(|refusal| said("what was read is refused", refusal))?;
    hold(written == file, "what was read is written as another file")?;
    Ok(true)
}

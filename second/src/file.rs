//! The whole read of a file, with its refusals in the paper's order.

use crate::check_code::check_code;
use crate::chunk::{Header, List};
use crate::item::Voice;
use crate::numbers::{number_at, Id, Stretch, LARGEST};
use crate::refusal::{Clause, Refusal};
use crate::track::{part_of, read_track, Part, Track};

#[derive(Clone, Copy, Debug, PartialEq, Eq)]
pub struct Row {
    pub id: Id,
    pub place: usize,
    pub size: usize,
    pub container: usize,
}

/// A file that passed refusals 1 to 14.
#[derive(Clone, Debug)]
pub struct Melody {
    pub rows: Vec<Row>,
    pub code: u16,
    pub verdict: bool,
    /// The readable tracks with their row numbers.
    pub tracks: Vec<(usize, Track)>,
}

/// Checks the whole file (1 to 14).
pub fn open(buffer: &[u8], stated: u32) -> Result<Melody, Refusal> {
    let file = stated_bytes(buffer, stated)?;
    check_outside(file)?;
    let headers = read_top(file)?;
    let (before, stored) = file.split_at(file.len() - 2);
    let code = check_code(before);
    let mut melody = Melody {
        rows: vec![Row { id: *b"MMMD", place: 0, size: file.len() - 8, container: 0 }],
        code,
        verdict: stored == code.to_be_bytes(),
        tracks: Vec::new(),
    };
    for header in headers {
        melody.add(file, header)?;
    }
    Ok(melody)
}

/// Reads a file into a table with room for that many rows (1 to 15).
pub fn read(buffer: &[u8], stated: u32, room: usize) -> Result<Melody, Refusal> {
    let melody = open(buffer, stated)?;
    match melody.rows.len() > room {
        true => Err(Refusal::at(Clause::ReadTableShort, 0)),
        false => Ok(melody),
    }
}

fn stated_bytes(buffer: &[u8], stated: u32) -> Result<&[u8], Refusal> {
    let stated = stated as usize;
    let file = buffer.get(..stated).ok_or(Refusal::at(Clause::LengthPastBuffer, 0))?;
    match stated > LARGEST {
        true => Err(Refusal::at(Clause::LengthPastLargest, 0)),
        false => Ok(file),
    }
}

/// Refusals 2 and 3.
fn check_outside(file: &[u8]) -> Result<(), Refusal> {
    if file.len() < 10 {
        return Err(Refusal::at(Clause::FileUnderTen, 0));
    }
    if !file.starts_with(b"MMMD") {
        return Err(Refusal::at(Clause::FileNotMmmd, 0));
    }
    let size = number_at(file, 4).map_or(0, u64::from);
    match (size + 8).cmp(&(file.len() as u64)) {
        std::cmp::Ordering::Less => Err(Refusal::at(Clause::FileSizeTooSmall, 4)),
        std::cmp::Ordering::Greater => Err(Refusal::at(Clause::FileSizeTooLarge, 4)),
        std::cmp::Ordering::Equal => Ok(()),
    }
}

/// The top-level list: 4 and 6 chunk by chunk, then 5, then 7.
fn read_top(file: &[u8]) -> Result<Vec<Header>, Refusal> {
    let list = List {
        file,
        stretch: Stretch { start: 8, end: file.len() - 2 },
        header_under_eight: Clause::TopHeaderUnderEight,
        size_past_end: Clause::TopSizePastEnd,
        id_again: Clause::TopIdAgain,
    };
    let headers = list.walk(|_| Ok(()))?;
    let first = headers.first().ok_or(Refusal::at(Clause::NoFirstChunk, 8))?;
    if &first.id != b"CNTI" {
        return Err(Refusal::at(Clause::FirstNotContents, 8));
    }
    if first.size < 5 {
        return Err(Refusal::at(Clause::ContentsUnderFive, 8));
    }
    match headers.iter().any(|header| part_of(header.id) != Part::Leaf) {
        true => Ok(headers),
        false => Err(Refusal::at(Clause::NoTrack, file.len() - 2)),
    }
}

impl Melody {
    /// Adds the rows of a top-level chunk, and the track if it is readable.
    fn add(&mut self, file: &[u8], header: Header) -> Result<(), Refusal> {
        let number = self.add_row(header, 0);
        let voice = match part_of(header.id) {
            Part::Score => Voice::Score,
            Part::Pcm => Voice::Pcm,
            Part::OtherTrack | Part::Leaf => return Ok(()),
        };
        let Some(track) = read_track(file, header, voice)? else { return Ok(()) };
        for chunk in &track.chunks {
            self.add_row(*chunk, number);
        }
        self.tracks.push((number, track));
        Ok(())
    }

    fn add_row(&mut self, header: Header, container: usize) -> usize {
        let Header { id, place, size } = header;
        self.rows.push(Row { id, place, size, container });
        self.rows.len() - 1
    }

    /// The readable track whose row number that is (16).
    pub fn track(&self, row: u32) -> Result<&Track, Refusal> {
        let row = row as usize;
        let found = self.tracks.iter().find(|(number, _)| *number == row);
        match found {
            Some((_, track)) => Ok(track),
            None if row < self.rows.len() => Err(Refusal::at(Clause::RowOfSomethingElse, 0)),
            None => Err(Refusal::at(Clause::RowPastLast, 0)),
        }
    }
}

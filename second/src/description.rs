//! What a file or a body is written from, and the bytes that say it in a case.

use crate::item::Voice;
use crate::word::{Word, WordItem};

/// A seek entry. `from` is a point's value, a phrase's start or how many letters
/// a list has; `letters` are a list's alone.
#[derive(Clone, Debug, PartialEq, Eq)]
pub struct SeekEntry {
    pub kind: u8,
    pub letter: u8,
    pub from: u32,
    pub to: u32,
    pub letters: Vec<u8>,
}

impl SeekEntry {
    pub const START: u8 = 0;
    pub const STOP: u8 = 1;
    pub const PHRASE: u8 = 2;
    pub const LIST: u8 = 3;

    pub fn start(value: u32) -> SeekEntry {
        SeekEntry { kind: SeekEntry::START, letter: 0, from: value, to: 0, letters: Vec::new() }
    }

    pub fn stop(value: u32) -> SeekEntry {
        SeekEntry { kind: SeekEntry::STOP, ..SeekEntry::start(value) }
    }

    pub fn phrase(letter: u8, start: u32, stop: u32) -> SeekEntry {
        SeekEntry { kind: SeekEntry::PHRASE, letter, to: stop, ..SeekEntry::start(start) }
    }

    pub fn list(letters: Vec<u8>) -> SeekEntry {
        let from = letters.len() as u32;
        SeekEntry { kind: SeekEntry::LIST, letters, ..SeekEntry::start(from) }
    }
}

/// Items and the source of their exclusives.
#[derive(Clone, Debug, Default, PartialEq, Eq)]
pub struct ItemTable {
    pub items: Vec<WordItem>,
    pub source: Vec<u8>,
}

/// A score track to be written.
#[derive(Clone, Debug, PartialEq, Eq)]
pub struct ScoreTrack {
    pub number: u8,
    pub fixed: [u8; 6],
    pub entries: Vec<SeekEntry>,
    pub table: ItemTable,
}

/// A file to be written.
#[derive(Clone, Debug, PartialEq, Eq)]
pub struct Description {
    pub contents: [u8; 5],
    pub tracks: Vec<ScoreTrack>,
}

/// A body to be written.
#[derive(Clone, Debug, PartialEq, Eq)]
pub struct BodyDescription {
    pub voice: Voice,
    pub table: ItemTable,
}

/// What is left of a description; taking more than there is gives nothing.
struct Rest<'a> {
    bytes: &'a [u8],
}

impl<'a> Rest<'a> {
    fn take(&mut self, count: usize) -> Option<&'a [u8]> {
        let taken = self.bytes.get(..count)?;
        self.bytes = &self.bytes[count..];
        Some(taken)
    }

    fn fixed<const COUNT: usize>(&mut self) -> Option<[u8; COUNT]> {
        self.take(COUNT)?.try_into().ok()
    }

    fn byte(&mut self) -> Option<u8> {
        self.fixed().map(|[byte]| byte)
    }

    fn number(&mut self) -> Option<u32> {
        self.fixed().map(u32::from_be_bytes)
    }

    /// That many parts one after the other; a count that the bytes cannot hold
    /// asks for no memory.
    fn many<T>(&mut self, count: u32, part: fn(&mut Rest<'a>) -> Option<T>) -> Option<Vec<T>> {
        (0..count).map(|_| part(self)).collect()
    }

    fn entry(&mut self) -> Option<SeekEntry> {
        let (kind, letter, from, to) = (self.byte()?, self.byte()?, self.number()?, self.number()?);
        let letters = match kind {
            SeekEntry::LIST => self.take(from as usize)?.to_vec(),
            _ => Vec::new(),
        };
        Some(SeekEntry { kind, letter, from, to, letters })
    }

    fn item(&mut self) -> Option<WordItem> {
        Some(WordItem { duration: self.number()?, word: Word(self.number()?) })
    }

    fn table(&mut self) -> Option<ItemTable> {
        let count = self.number()?;
        let items = self.many(count, Rest::item)?;
        let size = self.number()?;
        Some(ItemTable { items, source: self.take(size as usize)?.to_vec() })
    }

    fn track(&mut self) -> Option<ScoreTrack> {
        let (number, fixed) = (self.byte()?, self.fixed()?);
        let count = u16::from_be_bytes(self.fixed()?);
        let entries = self.many(u32::from(count), Rest::entry)?;
        Some(ScoreTrack { number, fixed, entries, table: self.table()? })
    }
}

impl Description {
    /// The description at the head of the bytes, or nothing where it is cut.
    /// What stands behind it is not looked at.
    pub fn from_bytes(bytes: &[u8]) -> Option<Description> {
        let mut rest = Rest { bytes };
        let (contents, count) = (rest.fixed()?, rest.byte()?);
        Some(Description { contents, tracks: rest.many(u32::from(count), Rest::track)? })
    }

    pub fn bytes(&self) -> Vec<u8> {
        let mut bytes = self.contents.to_vec();
        bytes.push(self.tracks.len() as u8);
        for track in &self.tracks {
            track.write(&mut bytes);
        }
        bytes
    }
}

impl BodyDescription {
    /// The same of a body, or nothing for a voice that there is not.
    pub fn from_bytes(bytes: &[u8]) -> Option<BodyDescription> {
        let mut rest = Rest { bytes };
        let voice = match rest.byte()? {
            0 => Voice::Score,
            1 => Voice::Pcm,
            _ => return None,
        };
        Some(BodyDescription { voice, table: rest.table()? })
    }

    pub fn bytes(&self) -> Vec<u8> {
        let voice = match self.voice {
            Voice::Score => 0,
            Voice::Pcm => 1,
        };
        let mut bytes = vec![voice];
        self.table.write(&mut bytes);
        bytes
    }
}

impl ScoreTrack {
    fn write(&self, bytes: &mut Vec<u8>) {
        bytes.push(self.number);
        bytes.extend(self.fixed);
        bytes.extend((self.entries.len() as u16).to_be_bytes());
        for entry in &self.entries {
            bytes.extend([entry.kind, entry.letter]);
            bytes.extend(entry.from.to_be_bytes());
            bytes.extend(entry.to.to_be_bytes());
            bytes.extend(&entry.letters);
        }
        self.table.write(bytes);
    }
}

impl ItemTable {
    fn write(&self, bytes: &mut Vec<u8>) {
        bytes.extend((self.items.len() as u32).to_be_bytes());
        for item in &self.items {
            bytes.extend(item.duration.to_be_bytes());
            bytes.extend(item.word.0.to_be_bytes());
        }
        bytes.extend((self.source.len() as u32).to_be_bytes());
        bytes.extend(&self.source);
    }
}

//! What was read, in the form that the writer takes: a track's items and its
//! seek entries.

use crate::description::SeekEntry;
use crate::file::open;
use crate::item::Sequence;
use crate::play::word_of;
use crate::refusal::{Clause, Refusal};
use crate::seek::Seek;
use crate::word::{Word, WordItem};

/// The items of a body; the source of its exclusives is the body itself.
pub fn items_of(sequence: &Sequence) -> Vec<WordItem> {
    let mut marks = sequence.marks.iter().peekable();
    let mut messages = sequence.messages.iter().peekable();
    let mut before = 0;
    let ends = sequence.addresses.iter().skip(1);
    let placed = sequence.items.iter().zip(ends);
    let items = placed.map(|(item, end)| {
        let duration = (item.onset - before) as u32;
        before = item.onset;
        let word = match marks.next_if(|mark| mark.start == item.start) {
            Some(_) => Word::MARK,
            None => match messages.next_if(|(_, message)| message.end <= *end) {
                Some((_, message)) => Word(word_of(message)),
                None => Word::NOP,
            },
        };
        WordItem { duration, word }
    });
    items.collect()
}

/// The entries of a seek body; what an entry does not use is 0.
pub fn entries_of(seek: &Seek) -> Vec<SeekEntry> {
    let mut entries = Vec::new();
    entries.extend(seek.start.map(|start| SeekEntry::start(start.value)));
    entries.extend(seek.stop.map(|stop| SeekEntry::stop(stop.value)));
    let phrases = seek.phrases.iter();
    entries
        .extend(phrases.map(|phrase| SeekEntry::phrase(phrase.letter, phrase.start, phrase.stop)));
    entries.extend(seek.list.iter().map(|list| SeekEntry::list(list.letters.clone())));
    entries
}

/// The items of the track with that row number (1 to 14, 16, 15).
pub fn items(buffer: &[u8], stated: u32, row: u32, room: usize) -> Result<Vec<WordItem>, Refusal> {
    let items = items_of(&open(buffer, stated)?.track(row)?.sequence);
    match items.len() > room {
        true => Err(Refusal::at(Clause::ItemTableShort, 0)),
        false => Ok(items),
    }
}

/// The seek entries of the track with that row number (1 to 14, 16, 15).
pub fn entries(
    buffer: &[u8],
    stated: u32,
    row: u32,
    room: usize,
) -> Result<Vec<SeekEntry>, Refusal> {
    let entries = entries_of(&open(buffer, stated)?.track(row)?.seek);
    match entries.len() > room {
        true => Err(Refusal::at(Clause::EntryTableShort, 0)),
        false => Ok(entries),
    }
}

//! Playing: sections of a sequence, one after the other, into played rows, up to
//! the first end mark that a section reaches.

use crate::file::open;
use crate::item::{Item, Kind, Message, Sequence};
use crate::refusal::{Clause, Refusal};
use crate::seek::Phrase;
use crate::track::Track;
use std::ops::Range;

/// A section: which of the sequence's messages it plays, its start time and
/// how long it lasts. All playing stops with a section that reaches an end mark.
#[derive(Clone, Debug, PartialEq, Eq)]
pub struct Section {
    pub messages: Range<usize>,
    pub start: u64,
    pub lasts: u64,
    pub stops: bool,
}

impl Section {
    /// The messages of the section with their steps in it.
    pub fn played<'a>(
        &self,
        sequence: &'a Sequence,
    ) -> impl Iterator<Item = (u64, &'a Message)> + 'a {
        let start = self.start;
        let messages = sequence.messages[self.messages.clone()].iter();
        messages.map(move |(onset, message)| (onset - start, message))
    }

    /// The section between two addresses; with no stop, it runs to the body's
    /// end.
    fn between(sequence: &Sequence, start: u32, stop: Option<u32>) -> Section {
        let stop = stop.map(|address| sequence.time_of(address));
        let mark = reached_mark(sequence, start, stop);
        let start = sequence.time_of(start);
        match mark {
            Some(mark) => Section::up_to_mark(sequence, start, mark),
            None => Section::up_to_stop(sequence, start, stop),
        }
    }

    /// What stands before the mark plays, and nothing behind it.
    fn up_to_mark(sequence: &Sequence, start: u64, mark: Item) -> Section {
        let standing = |(_, message): &(u64, Message)| message.start < mark.start;
        let messages = before(sequence, start)..sequence.messages.partition_point(standing);
        Section { messages, start, lasts: mark.onset - start, stops: true }
    }

    /// Onsets never fall, so the messages with a ≤ onset < b stand together.
    fn up_to_stop(sequence: &Sequence, start: u64, stop: Option<u64>) -> Section {
        let end = stop.map_or(sequence.messages.len(), |stop| before(sequence, stop));
        let messages = before(sequence, start)..end;
        Section { messages, start, lasts: stop.unwrap_or(sequence.time) - start, stops: false }
    }

    /// The section that a body with no points plays.
    pub fn whole(sequence: &Sequence) -> Section {
        Section::between(sequence, 0, None)
    }
}

/// How many messages sound before that time.
fn before(sequence: &Sequence, time: u64) -> usize {
    sequence.messages.partition_point(|(onset, _)| *onset < time)
}

/// The end mark that a section from that address up to that time reaches: the
/// first one at or after the address, unless its onset is too late. Those behind
/// it are no earlier.
fn reached_mark(sequence: &Sequence, start: u32, stop: Option<u64>) -> Option<Item> {
    let passed = sequence.marks.partition_point(|mark| mark.start < start as usize);
    let mark = sequence.marks.get(passed).copied()?;
    stop.is_none_or(|stop| mark.onset < stop).then_some(mark)
}

/// What a track plays: its different sections, and the order they come in, as
/// far as it is played.
pub struct Performance {
    pub sections: Vec<Section>,
    pub order: Vec<usize>,
}

impl Performance {
    /// Refusal 17 where a phrase track has no order list.
    pub fn of(track: &Track) -> Result<Performance, Refusal> {
        match track.phrases {
            true => Performance::of_phrases(track),
            false => Ok(Performance::of_stream(track)),
        }
    }

    fn of_stream(track: &Track) -> Performance {
        let stop = track.seek.stop.map(|stop| stop.value);
        let section = Section::between(&track.sequence, track.seek.start_value(), stop);
        Performance { sections: vec![section], order: vec![0] }
    }

    fn of_phrases(track: &Track) -> Result<Performance, Refusal> {
        let seek = &track.seek;
        let list = seek.list.as_ref();
        let list = list.ok_or(Refusal::at(Clause::OrderListMissing, track.header.place))?;
        let stop = seek.stop.map_or(list.letters.len(), |stop| stop.value as usize);
        let letters = &list.letters[seek.start_value() as usize..stop];
        let section =
            |phrase: &Phrase| Section::between(&track.sequence, phrase.start, Some(phrase.stop));
        let sections: Vec<Section> = seek.phrases.iter().map(section).collect();
        let order = played_order(letters, &seek.phrases, &sections);
        Ok(Performance { sections, order })
    }

    pub fn end(&self) -> u64 {
        self.order.iter().map(|index| self.sections[*index].lasts).sum()
    }

    pub fn message_count(&self) -> u64 {
        self.order.iter().map(|index| self.sections[*index].messages.len() as u64).sum()
    }

    /// All played messages with their steps; count them before.
    pub fn messages(&self, sequence: &Sequence) -> Vec<(u64, Message)> {
        let mut played = Vec::new();
        let mut before = 0;
        for index in &self.order {
            let section = &self.sections[*index];
            let messages = section.played(sequence);
            played.extend(messages.map(|(step, message)| (before + step, *message)));
            before += section.lasts;
        }
        played
    }
}

/// The sections of the letters, up to and with the first that reaches an end
/// mark.
fn played_order(letters: &[u8], phrases: &[Phrase], sections: &[Section]) -> Vec<usize> {
    let mut index_of = [0; 256];
    for (index, phrase) in phrases.iter().enumerate() {
        index_of[usize::from(phrase.letter)] = index;
    }
    let mut order = Vec::new();
    for letter in letters {
        let index = index_of[usize::from(*letter)];
        order.push(index);
        if sections[index].stops {
            break;
        }
    }
    order
}

/// What a track plays.
#[derive(Clone, Debug, PartialEq, Eq)]
pub struct Played {
    pub messages: Vec<(u64, Message)>,
    pub end: u64,
}

/// Plays a readable track into a table with that much room (17, 15).
pub fn play_track(track: &Track, room: usize) -> Result<Played, Refusal> {
    let performance = Performance::of(track)?;
    if performance.message_count() > room as u64 {
        return Err(Refusal::at(Clause::PlayTableShort, track.header.place));
    }
    Ok(Played { messages: performance.messages(&track.sequence), end: performance.end() })
}

/// Plays the track with that row number (1 to 14, 16, 17, 15).
pub fn play(buffer: &[u8], stated: u32, row: u32, room: usize) -> Result<Played, Refusal> {
    play_track(open(buffer, stated)?.track(row)?, room)
}

/// The 32-bit word of a played row.
pub fn word_of(message: &Message) -> u32 {
    let kind = (message.kind as u32) << 27;
    let value = u32::from(message.value);
    match message.kind {
        Kind::Exclusive => kind | (message.start as u32) << 11 | value << 3,
        _ => kind | u32::from(message.channel) << 25 | value << 17 | u32::from(message.gate) << 2,
    }
}

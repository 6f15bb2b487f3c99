//! The rare large descriptions: files and bodies of exactly so many bytes.

use crate::description::{BodyDescription, Description, ItemTable, SeekEntry};
use crate::generate::damage_describe::{damage, description_clauses};
use crate::generate::describe::{body_plan, good_description, good_table};
use crate::generate::word::{faulty_item, fits_voice, put_exclusive, word_clauses};
use crate::item::Voice;
use crate::numbers::LARGEST;
use crate::random::Random;
use crate::refusal::Clause;
use crate::word::{Word, WordItem};
use crate::write::{write_body, write_file};

/// What fills a file up: exclusives of one stretch of the source, so that the
/// description stays short; notes or waves; the letters of a list.
#[derive(Clone, Copy, PartialEq, Eq)]
enum Filler {
    Exclusives,
    Sounds,
    Letters,
}

/// An exclusive of the largest size after a duration of one byte, and the
/// smallest.
const LONGEST_ITEM: usize = 259;
const SHORTEST_EXCLUSIVE: usize = 7;

/// The lengths around the largest, in turn.
fn length_of(random: &mut Random, turn: u64) -> usize {
    match turn % 4 {
        0 => LARGEST - 1,
        1 => LARGEST,
        2 => LARGEST + 1,
        _ => LARGEST + random.between(2, 20_000),
    }
}

/// Every fifth has a fault besides.
fn filler_of(turn: u64) -> (Filler, bool) {
    match turn / 4 % 5 {
        0 | 1 => (Filler::Exclusives, false),
        2 => (Filler::Sounds, false),
        3 => (Filler::Letters, false),
        _ => (Filler::Exclusives, true),
    }
}

pub fn large_description(random: &mut Random, turn: u64) -> Description {
    let length = length_of(random, turn);
    let (filler, faulty) = filler_of(turn);
    let mut description = description_of_length(random, length, filler);
    if faulty {
        let clause = random.pick(&description_clauses());
        damage(random, &mut description, clause);
    }
    description
}

pub fn large_body(random: &mut Random, turn: u64) -> BodyDescription {
    let length = length_of(random, turn);
    let (filler, faulty) = filler_of(turn);
    let voice = random.pick(&[Voice::Score, Voice::Pcm]);
    let mut body = BodyDescription { voice, table: good_table(random, voice) };
    let written = write_body(&body, usize::MAX).map_or(0, |bytes| bytes.len());
    fill_table(random, &mut body.table, voice, filler, length - written);
    if faulty {
        put_faulty_item(random, &mut body);
    }
    body
}

/// Puts an item at fault in anywhere.
pub fn put_faulty_item(random: &mut Random, body: &mut BodyDescription) {
    let fits = |clause: &Clause| fits_voice(*clause, body.voice);
    let clauses: Vec<Clause> = word_clauses().into_iter().filter(fits).collect();
    let clause = random.pick(&clauses);
    let item = faulty_item(random, body.voice, clause, &mut body.table.source);
    body.table.items.insert(random.between(0, body.table.items.len()), item);
}

fn description_of_length(random: &mut Random, length: usize, filler: Filler) -> Description {
    let mut description = good_description(random);
    let index = random.below(description.tracks.len());
    if filler == Filler::Letters {
        let track = &mut description.tracks[index];
        track.fixed[1] = 1;
        let end = body_plan(&track.table).length();
        track.entries = vec![SeekEntry::phrase(b'R', 0, end), SeekEntry::list(Vec::new())];
    }
    let written = write_file(&description, usize::MAX).map_or(0, |file| file.len());
    let missing = length - written;
    let track = &mut description.tracks[index];
    match filler {
        Filler::Letters => track.entries[1] = SeekEntry::list(vec![b'R'; missing]),
        _ => fill_table(random, &mut track.table, Voice::Score, filler, missing),
    }
    description
}

/// Adds items of exactly that many bytes, seven or more.
fn fill_table(
    random: &mut Random,
    table: &mut ItemTable,
    voice: Voice,
    filler: Filler,
    bytes: usize,
) {
    let place = table.source.len();
    put_exclusive(random, &mut table.source, 255, 0xF7);
    let mut left = bytes;
    while filler == Filler::Exclusives && left >= LONGEST_ITEM + SHORTEST_EXCLUSIVE {
        let duration = random.below(128) as u32;
        table.items.push(WordItem { duration, word: Word::exclusive(place, 255) });
        left -= LONGEST_ITEM;
    }
    while filler != Filler::Exclusives && left >= 5 + SHORTEST_EXCLUSIVE {
        let item = sound(random, voice);
        left -= 2 + usize::from(item.duration > 127) + usize::from(item.word.gate() > 127);
        table.items.push(item);
    }
    while left > LONGEST_ITEM {
        table.items.push(WordItem { duration: 1, word: Word::NOP });
        left -= 3;
    }
    let size = left - 4;
    table.items.push(WordItem { duration: 0, word: Word::exclusive(place + 255 - size, size) });
}

/// A note or wave of three to five bytes.
fn sound(random: &mut Random, voice: Voice) -> WordItem {
    let kind = match voice {
        Voice::Score => 1,
        Voice::Pcm => 2,
    };
    let gate = random.pick(&[1, 127, 128, 16_511]);
    let word = Word::packed(kind, random.byte_between(0, 3), random.byte_between(1, 12), gate);
    WordItem { duration: random.pick(&[0, 127, 128, 16_511]), word }
}

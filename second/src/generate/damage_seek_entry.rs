//! Damage to the seek entries of a description.

use crate::description::{ScoreTrack, SeekEntry};
use crate::generate::describe::body_plan;
use crate::random::Random;
use crate::refusal::Clause;
use crate::seek::LETTERS;

/// Bytes that are no phrase's letter, those that stand between entries too.
const OTHER_LETTERS: &[u8] = b"CDFQTZ@[`{,:\0\xE1\xFF";

/// Puts the entry in the place of its tag, or where it belongs.
fn put(entries: &mut Vec<SeekEntry>, entry: SeekEntry) {
    let same_tag = |old: &SeekEntry| {
        old.kind == entry.kind && (old.kind != SeekEntry::PHRASE || old.letter == entry.letter)
    };
    entries.retain(|old| !same_tag(old));
    let place = entries.iter().take_while(|old| old.kind <= entry.kind).count();
    entries.insert(place, entry);
}

/// The letters of the phrases.
fn letters_of(entries: &[SeekEntry]) -> Vec<u8> {
    let phrases = entries.iter().filter(|entry| entry.kind == SeekEntry::PHRASE);
    phrases.map(|entry| entry.letter).collect()
}

/// The letters of the list.
fn list_of(entries: &[SeekEntry]) -> Vec<u8> {
    let list = entries.iter().find(|entry| entry.kind == SeekEntry::LIST);
    list.map_or(Vec::new(), |entry| entry.letters.clone())
}

/// Refusal 12.
pub fn damage_entries(random: &mut Random, track: &mut ScoreTrack, clause: Clause) {
    let entries = &mut track.entries;
    match clause {
        Clause::EntryUnknown => {
            let kind = random.pick(&[4, 5, 7, 0x80, 0xFF]);
            let letter = random.pick(LETTERS);
            let place = random.between(0, entries.len());
            let from = random.below(9) as u32;
            entries.insert(place, SeekEntry { kind, letter, ..SeekEntry::start(from) });
        }
        Clause::EntryPhraseLetter => put(entries, SeekEntry::phrase(other_letter(random), 0, 0)),
        Clause::EntryListLetter => {
            let mut letters = list_of(entries);
            letters.insert(random.between(0, letters.len()), other_letter(random));
            put(entries, SeekEntry::list(letters));
        }
        Clause::EntryTwice => repeat_entry(random, entries),
        Clause::EntryOutOfOrder => mix_order(random, entries),
        _ => {
            let position = random.below(1 + list_of(entries).len()) as u32;
            let over = random.pick(&[256, 257, 256 + position, 0x0001_0000 + position, u32::MAX]);
            let point = if random.percent(50) { SeekEntry::start } else { SeekEntry::stop };
            put(entries, point(over));
        }
    }
}

fn other_letter(random: &mut Random) -> u8 {
    random.pick(OTHER_LETTERS)
}

/// An entry comes again behind itself, with other numbers or the same.
fn repeat_entry(random: &mut Random, entries: &mut Vec<SeekEntry>) {
    if entries.is_empty() {
        let any = [SeekEntry::start(0), SeekEntry::phrase(b'a', 0, 0), SeekEntry::list(Vec::new())];
        entries.push(random.pick(&any));
    }
    let first = random.below(entries.len());
    let mut copy = entries[first].clone();
    copy.to ^= random.below(2) as u32;
    let second = random.between(first + 1, entries.len());
    entries.insert(second, copy);
}

/// Turns the entries round, or moves the last or the first to the other end.
fn mix_order(random: &mut Random, entries: &mut Vec<SeekEntry>) {
    if entries.is_empty() {
        put(entries, random.pick(&[SeekEntry::start(0), SeekEntry::phrase(b'z', 0, 0)]));
    }
    if entries.iter().all(|entry| entry.kind == entries[0].kind) {
        let more = match entries[0].kind {
            SeekEntry::LIST => SeekEntry::stop(0),
            _ => SeekEntry::list(Vec::new()),
        };
        put(entries, more);
    }
    match random.below(3) {
        0 => entries.reverse(),
        1 => entries.rotate_right(1),
        _ => entries.rotate_left(1),
    }
}

/// Refusals 13 and 14.
pub fn damage_points(random: &mut Random, track: &mut ScoreTrack, clause: Clause) {
    match clause {
        Clause::EntryLetterWithoutPhrase => lose_phrase(random, &mut track.entries),
        Clause::EntryPositionStartOverLength
        | Clause::EntryPositionStopOverLength
        | Clause::EntryPositionStartOverStop => {
            damage_positions(random, &mut track.entries, clause);
        }
        _ => damage_addresses(random, track, clause),
    }
}

/// Inside an item, past the body, or far away.
fn no_address(random: &mut Random, addresses: &[u32], length: u32) -> u32 {
    loop {
        let address = match random.below(4) {
            0 => random.pick(addresses) + 1,
            1 => length + 1,
            2 => random.below(length as usize + 9) as u32,
            _ => random.pick(&[u32::MAX, 0x8000_0000, 0x0001_0000, 0x0100_0000]),
        };
        if !addresses.contains(&address) {
            return address;
        }
    }
}

fn damage_addresses(random: &mut Random, track: &mut ScoreTrack, clause: Clause) {
    let body = body_plan(&track.table);
    let (addresses, length) = (body.addresses(), body.length());
    let bad = no_address(random, &addresses, length);
    let good = random.pick(&addresses);
    let before: Vec<u32> = addresses.iter().copied().filter(|address| *address < length).collect();
    let under = if before.is_empty() { 0 } else { random.pick(&before) };
    let letters = letters_of(&track.entries);
    let letter = if letters.is_empty() { random.pick(LETTERS) } else { random.pick(&letters) };
    let entries = &mut track.entries;
    match clause {
        Clause::EntryStartNoAddress => put(entries, SeekEntry::start(bad)),
        Clause::EntryStopNoAddress => put(entries, SeekEntry::stop(bad)),
        Clause::EntryStartOverStop => {
            put(entries, SeekEntry::start(length));
            put(entries, SeekEntry::stop(under));
        }
        Clause::EntryPhraseStartNoAddress => put(entries, SeekEntry::phrase(letter, bad, length)),
        Clause::EntryPhraseStopNoAddress => put(entries, SeekEntry::phrase(letter, good, bad)),
        _ => put(entries, SeekEntry::phrase(letter, length, under)),
    }
}

fn damage_positions(random: &mut Random, entries: &mut Vec<SeekEntry>, clause: Clause) {
    if !(1..=254).contains(&list_of(entries).len()) {
        put(entries, SeekEntry::phrase(b'S', 0, 0));
        put(entries, SeekEntry::list(vec![b'S'; random.between(1, 4)]));
    }
    let length = list_of(entries).len();
    let over = random.pick(&[length + 1, 255]) as u32;
    match clause {
        Clause::EntryPositionStartOverLength => put(entries, SeekEntry::start(over)),
        Clause::EntryPositionStopOverLength => {
            put(entries, SeekEntry::start(random.between(0, length) as u32));
            put(entries, SeekEntry::stop(over));
        }
        _ => {
            let start = random.between(1, length);
            put(entries, SeekEntry::start(start as u32));
            put(entries, SeekEntry::stop(random.below(start) as u32));
        }
    }
}

/// A letter of the list has no phrase, or loses it.
fn lose_phrase(random: &mut Random, entries: &mut Vec<SeekEntry>) {
    let (letters, mut list) = (letters_of(entries), list_of(entries));
    if !list.is_empty() && random.percent(40) {
        let lost = random.pick(&list);
        entries.retain(|entry| entry.kind != SeekEntry::PHRASE || entry.letter != lost);
        return;
    }
    let without: Vec<u8> =
        LETTERS.iter().copied().filter(|letter| !letters.contains(letter)).collect();
    let letter = if without.is_empty() { letters[0] } else { random.pick(&without) };
    entries.retain(|entry| entry.kind != SeekEntry::PHRASE || entry.letter != letter);
    list.insert(random.between(0, list.len()), letter);
    put(entries, SeekEntry::list(list));
}

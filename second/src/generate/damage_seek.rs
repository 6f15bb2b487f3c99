//! Damage to seek bodies: entries, addresses, positions and letters.

use crate::generate::file::{FilePlan, TrackPlan};
use crate::generate::seek::{Entry, SeekPlan};
use crate::random::Random;
use crate::refusal::Clause;
use crate::seek::LETTERS;

/// Refusal 12.
pub fn damage_entries(random: &mut Random, track: &mut TrackPlan, clause: Clause) {
    let phrases = track.phrases;
    let seek = track.seek();
    match clause {
        Clause::SeekEmpty => *seek = SeekPlan::default(),
        Clause::TagCut => {
            seek.final_comma = !seek.entries.is_empty();
            seek.tail = vec![random.pick(b"sPS,x\0")];
        }
        Clause::TagUnknown => insert_unknown(random, seek),
        Clause::ColonMissing => lose_colon(random, seek),
        Clause::DataCut => cut_data(random, seek, phrases),
        Clause::SeparatorWrong => {
            let index = fixed_entry(random, seek, phrases);
            seek.entries[index].data.push(random.pick(b";:\0.P\xFF"));
        }
        Clause::TagTwice => {
            let first = fixed_entry(random, seek, phrases);
            let copy = seek.entries[first].clone();
            let second = random.between(first + 1, seek.entries.len());
            seek.entries.insert(second, copy);
        }
        Clause::TagOutOfOrder => mix_order(random, seek, phrases),
        _ => {
            let mut letters = seek.list();
            let place = random.between(0, letters.len());
            letters.insert(place, random.pick(b"CDZ0: \0\xFF;"));
            seek.put(Entry::new(*b"SL", letters));
        }
    }
}

fn insert_unknown(random: &mut Random, seek: &mut SeekPlan) {
    let tags = [*b"ST", *b"PC", *b"PZ", *b"P:", *b"SP", *b"sl", *b"st", *b"pa", [0, 0]];
    let mut entry = Entry::new(random.pick(&tags), vec![0; 8]);
    if &entry.tag == b"st" {
        entry.tag = [b't', b's'];
    }
    let place = random.between(0, seek.entries.len());
    seek.entries.insert(place, entry);
}

fn lose_colon(random: &mut Random, seek: &mut SeekPlan) {
    if random.percent(30) || seek.entries.is_empty() {
        seek.final_comma = !seek.entries.is_empty();
        seek.tail = random.pick(&[*b"st", *b"SL", *b"Pa"]).to_vec();
        return;
    }
    let index = random.below(seek.entries.len());
    seek.entries[index].colon = vec![random.pick(b"; ,=\0")];
}

/// An entry whose data have a fixed length, made where there is none.
fn fixed_entry(random: &mut Random, seek: &mut SeekPlan, phrases: bool) -> usize {
    let fixed = |entry: &Entry| entry.rank() < 3;
    if !seek.entries.iter().any(fixed) {
        let width = if phrases { 1 } else { 4 };
        let start = Entry::new(*b"st", vec![0; width]);
        seek.put(random.pick(&[start, Entry::phrase(b'a', 0, 0)]));
    }
    let places: Vec<usize> =
        (0..seek.entries.len()).filter(|index| fixed(&seek.entries[*index])).collect();
    random.pick(&places)
}

fn cut_data(random: &mut Random, seek: &mut SeekPlan, phrases: bool) {
    let index = fixed_entry(random, seek, phrases);
    seek.entries.truncate(index + 1);
    let data = &mut seek.entries[index].data;
    data.truncate(random.below(data.len().max(1)));
    seek.final_comma = false;
}

/// Turns the entries round, or puts the list to the front.
fn mix_order(random: &mut Random, seek: &mut SeekPlan, phrases: bool) {
    fixed_entry(random, seek, phrases);
    if seek.entries.iter().all(|entry| entry.rank() == seek.entries[0].rank()) {
        seek.put(Entry::new(*b"SL", Vec::new()));
    }
    match random.below(2) {
        0 => seek.entries.reverse(),
        _ => seek.entries.rotate_right(1),
    }
}

/// The sequence type that a clause of refusals 13, 14 and 17 belongs to.
fn type_of(clause: Clause) -> Option<bool> {
    match clause {
        Clause::StreamStartNoAddress
        | Clause::StreamStopNoAddress
        | Clause::StreamStartOverStop => Some(false),
        Clause::PhraseStartNoAddress
        | Clause::PhraseStopNoAddress
        | Clause::PhraseStartOverStop => None,
        _ => Some(true),
    }
}

/// Refusals 13, 14 and 17.
pub fn damage_points(random: &mut Random, plan: &mut FilePlan, clause: Clause) {
    let phrases = type_of(clause);
    let track = plan.track(random, None, phrases);
    match clause {
        Clause::LetterWithoutPhrase => lose_phrase(random, track.seek()),
        Clause::OrderListMissing => lose_list(random, track),
        _ => match phrases {
            Some(false) => damage_addresses(random, track, clause),
            Some(true) => damage_positions(random, track.seek(), clause),
            None => damage_phrase(random, track, clause),
        },
    }
}

/// Inside an item, past the body, or far away.
fn no_address(random: &mut Random, track: &TrackPlan) -> u32 {
    let addresses = track.sequence.addresses();
    let length = track.sequence.length();
    loop {
        let address = match random.below(4) {
            0 => random.pick(&addresses) + 1,
            1 => length + 1,
            2 => random.below(length as usize + 9) as u32,
            _ => random.pick(&[0xFFFF_FFFF, 0x8000_0000, 0x0001_0000, 0x0100_0000]),
        };
        if !addresses.contains(&address) {
            return address;
        }
    }
}

fn damage_addresses(random: &mut Random, track: &mut TrackPlan, clause: Clause) {
    let bad = no_address(random, track);
    let length = track.sequence.length();
    let addresses = track.sequence.addresses();
    let seek = track.seek();
    let point = |tag: &[u8; 2], address: u32| Entry::new(*tag, address.to_be_bytes().to_vec());
    match clause {
        Clause::StreamStartNoAddress => seek.put(point(b"st", bad)),
        Clause::StreamStopNoAddress => seek.put(point(b"sp", bad)),
        _ => {
            let mut under = addresses;
            under.retain(|address| *address == 0 || *address < length);
            seek.put(point(b"st", length));
            seek.put(point(b"sp", random.pick(&under)));
        }
    }
}

fn damage_phrase(random: &mut Random, track: &mut TrackPlan, clause: Clause) {
    let bad = no_address(random, track);
    let length = track.sequence.length();
    let good = random.pick(&track.sequence.addresses());
    let seek = track.seek();
    let letters = seek.letters();
    let letter = if letters.is_empty() { b'a' } else { random.pick(&letters) };
    seek.put(match clause {
        Clause::PhraseStartNoAddress => Entry::phrase(letter, bad, length),
        Clause::PhraseStopNoAddress => Entry::phrase(letter, good, bad),
        _ => Entry::phrase(letter, length, 0),
    });
}

fn damage_positions(random: &mut Random, seek: &mut SeekPlan, clause: Clause) {
    let letters = seek.letters();
    let mut list = seek.list();
    if list.is_empty() && !letters.is_empty() {
        list = vec![random.pick(&letters); random.between(1, 4)];
        seek.put(Entry::new(*b"SL", list.clone()));
    }
    let length = list.len().min(254);
    let over = random.pick(&[length + 1, 255]) as u8;
    let position = |tag: &[u8; 2], value: u8| Entry::new(*tag, vec![value]);
    match clause {
        Clause::PositionStartOverLength => seek.put(position(b"st", over)),
        Clause::PositionStopOverLength => seek.put(position(b"sp", over)),
        _ => {
            let start = random.between(1, length.max(1));
            seek.put(position(b"st", start as u8));
            seek.put(position(b"sp", random.below(start) as u8));
        }
    }
}

/// Takes a phrase away, or adds a letter that has none.
fn lose_phrase(random: &mut Random, seek: &mut SeekPlan) {
    let letters = seek.letters();
    let without: Vec<u8> =
        LETTERS.iter().copied().filter(|letter| !letters.contains(letter)).collect();
    let mut list = seek.list();
    if without.is_empty() {
        let lost = random.pick(&letters);
        seek.drop_tag(&[b'P', lost]);
        list.push(lost);
    } else {
        let place = random.between(0, list.len());
        list.insert(place, random.pick(&without));
    }
    seek.put(Entry::new(*b"SL", list));
}

/// A phrase track without a list; its positions can only be 0.
fn lose_list(random: &mut Random, track: &mut TrackPlan) {
    let seek = track.seek();
    for tag in [b"SL", b"st", b"sp"] {
        seek.drop_tag(tag);
    }
    if random.percent(30) {
        seek.put(Entry::new(*b"st", vec![0]));
    }
    if seek.entries.is_empty() || random.percent(20) {
        track.seek = None;
    }
}

//! Damage to descriptions: a change that one clause of the writer refuses, and
//! changes without a plan.

use crate::description::{Description, ScoreTrack, SeekEntry};
use crate::generate::damage_seek_entry::{damage_entries, damage_points};
use crate::generate::describe::{free_number, good_track, small_track};
use crate::generate::word::{faulty_item, fits_voice, wild_item};
use crate::item::Voice;
use crate::random::Random;
use crate::refusal::Clause;

/// The clauses that a small description can be refused by, whatever the room.
pub fn description_clauses() -> Vec<Clause> {
    let of_description = |clause: &Clause| match clause.number() {
        24 => *clause == Clause::TracksOverSixteen,
        _ => fits_voice(*clause, Voice::Score),
    };
    Clause::WRITING.iter().copied().filter(of_description).collect()
}

/// Damages the description so that the clause is among its faults.
pub fn damage(random: &mut Random, description: &mut Description, clause: Clause) {
    match clause.number() {
        6 => repeat_number(random, description),
        7 => description.tracks.clear(),
        8 => damage_fixed(random, description, clause),
        11 => any_track(random, description, None).table.items.clear(),
        12 => {
            let phrases = (clause == Clause::EntryPointOver255).then_some(true);
            let track = any_track(random, description, phrases);
            damage_entries(random, track, clause);
        }
        13 | 14 => {
            let phrases = type_of(clause);
            let track = any_track(random, description, phrases);
            damage_points(random, track, clause);
        }
        24 => add_tracks(random, description),
        _ => put_faulty_item(random, description, clause),
    }
}

/// The sequence type that a clause of refusals 13 and 14 belongs to.
fn type_of(clause: Clause) -> Option<bool> {
    match clause {
        Clause::EntryStartNoAddress | Clause::EntryStopNoAddress | Clause::EntryStartOverStop => {
            Some(false)
        }
        Clause::EntryPhraseStartNoAddress
        | Clause::EntryPhraseStopNoAddress
        | Clause::EntryPhraseStartOverStop => None,
        _ => Some(true),
    }
}

/// A track of that sequence type, made where there is none.
fn any_track<'a>(
    random: &mut Random,
    description: &'a mut Description,
    phrases: Option<bool>,
) -> &'a mut ScoreTrack {
    let tracks = &mut description.tracks;
    let fits = |track: &ScoreTrack| phrases.is_none_or(|phrases| track.fixed[1] == phrases.into());
    let fitting: Vec<usize> = (0..tracks.len()).filter(|index| fits(&tracks[*index])).collect();
    let index = match fitting.is_empty() {
        true => {
            let number = free_number(random, tracks);
            let any_type = random.percent(50);
            tracks.push(good_track(random, number, phrases.unwrap_or(any_type)));
            tracks.len() - 1
        }
        false => random.pick(&fitting),
    };
    &mut tracks[index]
}

/// Two tracks of one number, or four of which the second is met before the first
/// comes again.
fn repeat_number(random: &mut Random, description: &mut Description) {
    let nested = random.percent(30);
    let tracks = &mut description.tracks;
    while tracks.len() < if nested { 4 } else { 2 } {
        let number = free_number(random, tracks);
        tracks.push(small_track(random, number));
    }
    if nested {
        tracks[2].number = tracks[1].number;
        tracks[3].number = tracks[0].number;
        return;
    }
    let second = random.between(1, tracks.len() - 1);
    tracks[second].number = tracks[random.below(second)].number;
}

fn damage_fixed(random: &mut Random, description: &mut Description, clause: Clause) {
    let fixed = &mut any_track(random, description, None).fixed;
    let unknown_base = [0x04, 0x0F, 0x14, 0x20, 0x80, 0x90, 0xFF];
    match clause {
        Clause::FixedFormatClosed => fixed[0] = random.byte_between(1, 2),
        Clause::FixedFormatOverTwo => fixed[0] = random.pick(&[3, 4, 0x80, 0xFF]),
        Clause::FixedSequenceType => fixed[1] = random.pick(&[2, 3, 0x80, 0xFF]),
        Clause::FixedTimeBaseD => fixed[2] = random.pick(&unknown_base),
        _ => fixed[3] = random.pick(&unknown_base),
    }
}

/// Puts the item in anywhere, or in the place of another.
fn put_faulty_item(random: &mut Random, description: &mut Description, clause: Clause) {
    let table = &mut any_track(random, description, None).table;
    let item = faulty_item(random, Voice::Score, clause, &mut table.source);
    let place = random.between(0, table.items.len());
    if place < table.items.len() && random.percent(50) {
        table.items[place] = item;
    } else {
        table.items.insert(place, item);
    }
}

/// More tracks than a file may have, seventeen mostly.
fn add_tracks(random: &mut Random, description: &mut Description) {
    let count = match random.below(100) {
        0..=74 => 17,
        75..=89 => random.between(18, 24),
        _ => random.pick(&[64, 255]),
    };
    while description.tracks.len() < count {
        let number = free_number(random, &description.tracks);
        let place = random.between(0, description.tracks.len());
        let track = small_track(random, number);
        description.tracks.insert(place, track);
    }
}

/// One thing of the description becomes another.
pub fn change_one(random: &mut Random, description: &mut Description) {
    if description.tracks.is_empty() {
        return;
    }
    match random.below(10) {
        0 => description.contents[random.below(5)] = random.byte(),
        1 => change_tracks(random, &mut description.tracks),
        _ => {
            let index = random.below(description.tracks.len());
            change_track(random, &mut description.tracks[index]);
        }
    }
}

fn change_tracks(random: &mut Random, tracks: &mut Vec<ScoreTrack>) {
    let (one, other) = (random.below(tracks.len()), random.below(tracks.len()));
    match random.below(3) {
        0 => tracks.swap(one, other),
        1 => drop(tracks.remove(one)),
        _ => tracks[one].number = tracks[other].number.wrapping_add(random.byte_between(0, 1)),
    }
}

fn change_track(random: &mut Random, track: &mut ScoreTrack) {
    match random.below(8) {
        0 => track.fixed[random.below(6)] ^= 1 << random.below(8),
        1 | 2 => change_entries(random, track),
        3 if !track.table.source.is_empty() => {
            let place = random.below(track.table.source.len());
            match random.percent(70) {
                true => track.table.source[place] = random.pick(&[0x00, 0xF6, 0xF7, 0xFF]),
                false => drop(track.table.source.pop()),
            }
        }
        _ => change_items(random, track),
    }
}

fn change_items(random: &mut Random, track: &mut ScoreTrack) {
    let items = &mut track.table.items;
    let (one, other) = (random.below(items.len().max(1)), random.below(items.len().max(1)));
    match random.below(6) {
        _ if items.is_empty() => items.push(wild_item(random)),
        0 => items.swap(one, other),
        1 => drop(items.remove(one)),
        2 => items.insert(one, wild_item(random)),
        3 => items[one].duration ^= 1 << random.below(16),
        4 => items[one].word.0 ^= 1 << random.below(32),
        _ => items[one] = wild_item(random),
    }
}

fn change_entries(random: &mut Random, track: &mut ScoreTrack) {
    let entries = &mut track.entries;
    if entries.is_empty() {
        return;
    }
    let (one, other) = (random.below(entries.len()), random.below(entries.len()));
    match random.below(5) {
        0 => entries.swap(one, other),
        1 => drop(entries.remove(one)),
        2 => entries[one].letter ^= 1 << random.below(8),
        3 if entries[one].kind != SeekEntry::LIST => entries[one].from ^= 1 << random.below(9),
        _ => entries[one].to ^= 1 << random.below(9),
    }
}

//! The play rule of end marks once more, as filters over all items, with the
//! wrong readings that small files and generated ones must tell apart.

mod shared;

use second::file::open;
use second::generate::file::FilePlan;
use second::item::{Item, Message, Sequence};
use second::play::{play_track, Performance};
use second::random::Random;
use second::track::Track;
use shared::*;
use std::collections::BTreeMap;

/// How the rule of end marks may be read; all but the first are wrong.
#[derive(Clone, Copy, Debug, PartialEq, Eq)]
enum Reading {
    Right,
    ByTimeAlone,
    AtTheStop,
    OwnSectionAlone,
    BehindAtItsOnset,
    EndOfTheSection,
}

const WRONG: [Reading; 5] = [
    Reading::ByTimeAlone,
    Reading::AtTheStop,
    Reading::OwnSectionAlone,
    Reading::BehindAtItsOnset,
    Reading::EndOfTheSection,
];

/// The start of a section and its stop, if there is one.
type Addresses = (u32, Option<u32>);

/// The sections of a track by their addresses; none without an order.
fn sections(track: &Track) -> Option<Vec<Addresses>> {
    let seek = &track.seek;
    let stop = seek.stop.map(|stop| stop.value);
    if !track.phrases {
        return Some(vec![(seek.start_value(), stop)]);
    }
    let letters = &seek.list.as_ref()?.letters;
    let stop = stop.map_or(letters.len(), |stop| stop as usize);
    let letters = &letters[seek.start_value() as usize..stop];
    let phrases = letters.iter().map(|letter| seek.phrase(*letter).expect("it has a phrase"));
    Some(phrases.map(|phrase| (phrase.start, Some(phrase.stop))).collect())
}

/// The first mark that passes both tests, one by one.
fn reached(sequence: &Sequence, reading: Reading, start: u32, stop: Option<u64>) -> Option<Item> {
    let mut marks = sequence.marks.iter().copied();
    marks.find(|mark| {
        let placed = match reading {
            Reading::ByTimeAlone => mark.onset >= sequence.time_of(start),
            _ => mark.start >= start as usize,
        };
        let in_time = match (reading, stop) {
            (_, None) => true,
            (Reading::AtTheStop, Some(stop)) => mark.onset <= stop,
            (_, Some(stop)) => mark.onset < stop,
        };
        placed && in_time
    })
}

/// What plays under a reading, as filters over all messages.
fn played_by(
    sequence: &Sequence,
    sections: &[Addresses],
    reading: Reading,
) -> (Vec<(u64, Message)>, u64) {
    let mut rows = Vec::new();
    let mut end = 0;
    for (start, stop) in sections {
        let from = sequence.time_of(*start);
        let stop = stop.map(|stop| sequence.time_of(stop));
        let mark = reached(sequence, reading, *start, stop);
        for (onset, message) in &sequence.messages {
            let in_range = from <= *onset && stop.is_none_or(|stop| *onset < stop);
            let before = mark.is_none_or(|mark| match reading {
                Reading::BehindAtItsOnset => *onset <= mark.onset,
                _ => message.start < mark.start,
            });
            if in_range && before {
                rows.push((end + onset - from, *message));
            }
        }
        end += match mark {
            Some(mark) if reading != Reading::EndOfTheSection => mark.onset - from,
            _ => stop.unwrap_or(sequence.time) - from,
        };
        if mark.is_some() && reading != Reading::OwnSectionAlone {
            break;
        }
    }
    (rows, end)
}

/// Whether the file's track is played in another way under that reading.
fn tells_apart(file: &[u8], reading: Reading) -> bool {
    let melody = open(file, file.len() as u32).unwrap();
    let track = &melody.tracks[0].1;
    let sections = sections(track).unwrap();
    let played = play_track(track, 70_000).unwrap();
    let right = (played.messages, played.end);
    assert_eq!(played_by(&track.sequence, &sections, Reading::Right), right);
    played_by(&track.sequence, &sections, reading) != right
}

#[test]
fn small_files_tell_wrong_readings_apart() {
    let two = joined(&[&note(5, 1), &MARK, &note(3, 2)]);
    assert!(tells_apart(&stream(&point(b"st", 7), &two), Reading::ByTimeAlone));
    assert!(tells_apart(&karaoke(b"ab"), Reading::AtTheStop));
    assert!(tells_apart(&karaoke(b"Sa"), Reading::OwnSectionAlone));
    let together = joined(&[&note(5, 1), &MARK, &note(0, 2)]);
    assert!(tells_apart(&stream(&[], &together), Reading::BehindAtItsOnset));
    assert!(tells_apart(&stream(&[], &two), Reading::EndOfTheSection));
    for reading in WRONG {
        let unmarked = joined(&[&note(5, 1), &note(3, 2), &MARK]);
        assert!(!tells_apart(&stream(&[], &unmarked), reading));
    }
}

/// The tracks of generated files that have an order, with their sections.
fn generated(mut look: impl FnMut(&Track, &[Addresses])) {
    for number in 0..4_000 {
        let mut random = Random::for_index(7, number);
        let file = FilePlan::new(&mut random).draft().bytes(&mut random);
        for (_, track) in &open(&file, file.len() as u32).unwrap().tracks {
            let sections = sections(track).expect("a plan has an order");
            look(track, &sections);
        }
    }
}

#[test]
fn generated_files_tell_wrong_readings_apart() {
    let mut told = [0; WRONG.len()];
    generated(|track, sections| {
        let performance = Performance::of(track).unwrap();
        let right = (performance.messages(&track.sequence), performance.end());
        assert_eq!(played_by(&track.sequence, sections, Reading::Right), right);
        for (count, reading) in told.iter_mut().zip(WRONG) {
            let wrong = played_by(&track.sequence, sections, reading);
            *count += u32::from(wrong != right);
        }
    });
    assert!(told.iter().all(|count| *count > 200), "{told:?}");
}

/// Where playing stops in a track that has an end mark before its end.
fn place_of_stop(track: &Track, sections: &[Addresses]) -> &'static str {
    let stops = |(start, stop): &Addresses| {
        let stop = stop.map(|stop| track.sequence.time_of(stop));
        reached(&track.sequence, Reading::Right, *start, stop).is_some()
    };
    match (sections.iter().position(stops), track.phrases) {
        (None, true) => "list: not reached",
        (None, false) => "stream: not reached",
        (Some(_), false) => match (track.seek.start, track.seek.stop) {
            (None, None) => "stream: without points",
            (Some(_), None) => "stream: with st",
            (None, Some(_)) => "stream: with sp",
            (Some(_), Some(_)) => "stream: with st and sp",
        },
        (Some(_), true) if sections.len() == 1 => "list: in the only letter",
        (Some(0), true) => "list: in the first letter",
        (Some(index), true) if index + 1 == sections.len() => "list: in the last letter",
        (Some(_), true) => "list: in a middle letter",
    }
}

/// How the end marks stand to a section.
fn around(sequence: &Sequence, start: u32, stop: Option<u32>) -> Vec<&'static str> {
    let from = sequence.time_of(start);
    let stop_time = stop.map(|stop| sequence.time_of(stop));
    let (start_place, stop_place) = (start as usize, stop.map(|stop| stop as usize));
    let mut found = Vec::new();
    for mark in &sequence.marks {
        if mark.start < start_place && mark.onset == from {
            found.push("before the start, at its time");
        }
        if Some(mark.start) == stop_place {
            found.push("at the stop");
        }
        if start_place <= mark.start
            && Some(mark.start) < stop_place
            && Some(mark.onset) == stop_time
        {
            found.push("before the stop, at its time");
        }
    }
    if let Some(mark) = reached(sequence, Reading::Right, start, stop_time) {
        found.extend(around_reached(sequence, mark, start_place, from));
    }
    found
}

/// What stands beside the end mark that a section reaches.
fn around_reached(sequence: &Sequence, mark: Item, start: usize, from: u64) -> Vec<&'static str> {
    let mut found = Vec::new();
    if mark.start == start {
        found.push("at the start");
    }
    if sequence.marks.iter().any(|next| next.start == mark.start + MARK.len()) {
        found.push("with another beside it");
    }
    for (onset, message) in &sequence.messages {
        if message.start < start && *onset == from {
            found.push("with a message before the start, at its time");
        }
        if *onset == mark.onset {
            found.push(match message.start < mark.start {
                true => "with a message before it, at its onset",
                false => "with a message behind it, at its onset",
            });
        }
    }
    found
}

#[test]
fn generated_marks_stand_everywhere() {
    let mut counts = BTreeMap::new();
    let mut unmarked = 0;
    let mut all = 0;
    generated(|track, sections| {
        all += 1;
        let sequence = &track.sequence;
        if sequence.marks.iter().all(|mark| Some(mark) == sequence.items.last()) {
            unmarked += 1;
            return;
        }
        *counts.entry(place_of_stop(track, sections)).or_insert(0) += 1;
        for (start, stop) in sections {
            for found in around(sequence, *start, *stop) {
                *counts.entry(found).or_insert(0) += 1;
            }
        }
    });
    assert_eq!(counts.len(), 18, "{counts:#?}");
    assert!(counts.values().all(|count| *count > 50), "{counts:#?}");
    assert!(all < 3 * unmarked && 3 * unmarked < 2 * all, "{unmarked} of {all}");
}

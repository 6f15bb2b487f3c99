//! Points 9 and 11 once more, as tables of faults that are each found by
//! themselves, with the wrong readings of their order that generated cases must
//! tell apart.

mod shared;

use second::case::Operation;
use second::description::{BodyDescription, Description, ScoreTrack, SeekEntry};
use second::generate::case;
use second::item::Voice;
use second::word::{Word, WordItem};
use second::write::{write_body, write_file};
use shared::*;
use std::collections::BTreeMap;

const CASES: u64 = 4_000;

/// A number, and whether the fault is there.
type Fault = (u32, bool);

/// A refusal's number and place, or (0, 0).
type Told = (u32, usize);

fn first(faults: impl IntoIterator<Item = Fault>) -> u32 {
    faults.into_iter().find(|(_, there)| *there).map_or(0, |(number, _)| number)
}

fn lacks(voice: Voice, kind: u32) -> bool {
    match voice {
        Voice::Score => kind == 2,
        Voice::Pcm => [1, 3, 4, 5, 6, 11].contains(&kind),
    }
}

fn bad_exclusive(word: u32, source: &[u8]) -> bool {
    let (place, size) = ((word >> 11 & 0xFFFF) as usize, (word >> 3 & 0xFF) as usize);
    let end = place + 3 + size;
    size < 3 || end > source.len() || source[end - 1] != 0xF7
}

/// The rows of point 9 in their order.
fn faults_of(item: WordItem, voice: Voice, source: &[u8]) -> [Fault; 8] {
    let (duration, word, kind) = (item.duration, item.word.0, item.word.0 >> 27);
    let (value, gate) = (word >> 17 & 0xFF, word >> 2 & 0x7FFF);
    let sound = kind == 1 || kind == 2;
    let bad_note = kind == 1 && (!(1..=12).contains(&(value & 15)) || value > 63);
    let bad_wave = kind == 2 && !(1..=62).contains(&value);
    let reserved = match kind {
        3 | 6..=10 => value > 127,
        5 => !(value <= 4 || (0x81..=0x84).contains(&value)),
        11..=13 => !(1..=14).contains(&value),
        _ => false,
    };
    let unused = match kind {
        1 | 2 => 2,
        14 => 3,
        15 | 16 => 27,
        _ => 17,
    };
    [
        (23, duration > 16_511 || kind == 16 && duration > 0),
        (22, kind == 0 || kind > 16 || lacks(voice, kind)),
        (21, bad_note || bad_wave),
        (21, sound && gate == 0),
        (23, sound && gate > 16_511),
        (23, reserved),
        (23, kind == 14 && bad_exclusive(word, source)),
        (23, word << (32 - unused) != 0),
    ]
}

/// What a body is refused for when the rows are tried in that order.
fn body_refusal(body: &BodyDescription, order: impl Fn(&[Fault; 8]) -> u32) -> Told {
    let items = &body.table.items;
    if items.is_empty() {
        return (11, 0);
    }
    let told = |item: &WordItem| order(&faults_of(*item, body.voice, &body.table.source));
    let place = items.iter().position(|item| told(item) > 0);
    place.map_or((0, 0), |place| (told(&items[place]), place))
}

fn bodies() -> impl Iterator<Item = BodyDescription> {
    let cases = (0..CASES).map(|number| case(&[Operation::WriteBody], 5, number));
    cases.map(|case| BodyDescription::from_bytes(&case.buffer).expect("it is whole"))
}

fn reordered(faults: &[Fault; 8], order: [usize; 8]) -> u32 {
    first(order.map(|index| faults[index]))
}

#[test]
fn the_faults_of_items_in_their_order() {
    let mut differ = BTreeMap::new();
    for body in bodies() {
        let right = outcome(write_body(&body, usize::MAX));
        let by_table = body_refusal(&body, |faults| first(*faults));
        assert_eq!(right, if right.0 == 24 { right } else { by_table }, "{body:x?}");
        let lowest = |faults: &[Fault; 8]| {
            faults.iter().filter(|(_, there)| *there).map(|(number, _)| *number).min().unwrap_or(0)
        };
        let wrong = [
            (
                "stray bits first",
                body_refusal(&body, |faults| reordered(faults, [7, 0, 1, 2, 3, 4, 5, 6])),
            ),
            (
                "the kind first",
                body_refusal(&body, |faults| reordered(faults, [1, 0, 2, 3, 4, 5, 6, 7])),
            ),
            (
                "a long gate first",
                body_refusal(&body, |faults| reordered(faults, [0, 1, 4, 2, 3, 5, 6, 7])),
            ),
            (
                "the duration last",
                body_refusal(&body, |faults| reordered(faults, [1, 2, 3, 4, 5, 6, 7, 0])),
            ),
            ("the lowest number", body_refusal(&body, lowest)),
        ];
        for (reading, told) in wrong {
            *differ.entry(reading).or_insert(0) += u32::from(told != by_table);
        }
    }
    assert!(differ.values().all(|count| *count >= 20), "{differ:?}");
}

fn refused_alone(track: ScoreTrack) -> u32 {
    let description = Description { contents: [0; 5], tracks: vec![track] };
    match outcome(write_file(&description, usize::MAX)).0 {
        24 => 0,
        number => number,
    }
}

/// The faults of a track by themselves: 8, those of items, those of entries. Of
/// entries over items at fault, only 12 can be told.
fn faults_of_track(track: &ScoreTrack) -> [u32; 3] {
    let mended_fixed = [0, track.fixed[1].min(1), 0, 0, 0, 0];
    let mut mended_table = track.table.clone();
    mended_table.items = vec![WordItem { duration: 0, word: Word::NOP }];
    let without_entries = ScoreTrack { entries: Vec::new(), ..track.clone() };
    let fixed =
        refused_alone(ScoreTrack { table: mended_table.clone(), ..without_entries.clone() });
    let items = refused_alone(ScoreTrack { fixed: mended_fixed, ..without_entries });
    let mended = ScoreTrack { fixed: mended_fixed, ..track.clone() };
    let entries = match items {
        0 => refused_alone(mended),
        _ => match refused_alone(ScoreTrack { table: mended_table, ..mended }) {
            12 => 12,
            _ => 0,
        },
    };
    [fixed, items, entries]
}

fn repeated(tracks: &[ScoreTrack]) -> Option<usize> {
    let stood =
        |index: &usize| tracks[..*index].iter().any(|old| old.number == tracks[*index].number);
    (0..tracks.len()).find(stood)
}

/// The second track of the first number that comes again.
fn repeated_by_first(tracks: &[ScoreTrack]) -> Option<usize> {
    let again = |index: usize| {
        let later = tracks.iter().skip(index + 1);
        later.map(|track| track.number).position(|number| number == tracks[index].number)
    };
    (0..tracks.len()).find_map(|index| again(index).map(|after| index + 1 + after))
}

/// Point 11 without 24: 6, 7, then track by track.
fn by_table(tracks: &[ScoreTrack], faults: &[[u32; 3]]) -> Told {
    if let Some(index) = repeated(tracks) {
        return (6, index);
    }
    if tracks.is_empty() {
        return (7, 0);
    }
    by_track(faults)
}

fn by_track(faults: &[[u32; 3]]) -> Told {
    let told = |faults: &[u32; 3]| faults.iter().copied().find(|number| *number > 0);
    let first = faults.iter().position(|faults| told(faults).is_some());
    first.map_or((0, 0), |index| (told(&faults[index]).unwrap_or(0), index))
}

/// All tracks for one check, then all for the next.
fn by_check(faults: &[[u32; 3]]) -> Told {
    for check in 0..3 {
        if let Some(index) = faults.iter().position(|faults| faults[check] > 0) {
            return (faults[index][check], index);
        }
    }
    (0, 0)
}

fn wrong_readings(tracks: &[ScoreTrack], faults: &[[u32; 3]]) -> [(&'static str, Told); 6] {
    let right = by_table(tracks, faults);
    let of_tracks = |told: Told| if matches!(right.0, 6 | 7) { right } else { told };
    let turned: Vec<[u32; 3]> =
        faults.iter().map(|[one, two, three]| [*one, *three, *two]).collect();
    let items_first: Vec<[u32; 3]> =
        faults.iter().map(|[one, two, three]| [*two, *one, *three]).collect();
    let inside = by_track(faults);
    let named = repeated_by_first(tracks).map_or(right, |index| (6, index));
    [
        ("check by check", of_tracks(by_check(faults))),
        ("entries before items", of_tracks(by_track(&turned))),
        ("items before fixed bytes", of_tracks(by_track(&items_first))),
        ("tracks before 6", if inside.0 > 0 { inside } else { right }),
        ("6 by the first number", named),
        ("24 before tracks", if tracks.len() > 16 { (24, 0) } else { right }),
    ]
}

#[test]
fn the_faults_of_files_in_their_order() {
    let mut differ = BTreeMap::new();
    for number in 0..CASES {
        let case = case(&[Operation::Write], 5, number);
        let description = Description::from_bytes(&case.buffer).expect("it is whole");
        let tracks = &description.tracks;
        let faults: Vec<[u32; 3]> = tracks.iter().map(faults_of_track).collect();
        let right = by_table(tracks, &faults);
        let told = outcome(write_file(&description, usize::MAX));
        assert_eq!(told, if told.0 == 24 { told } else { right }, "case {number}");
        assert_eq!(told.0 == 24, right.0 == 0 && told.0 != 0, "case {number}");
        for (reading, wrong) in wrong_readings(tracks, &faults) {
            let answer = if right.0 == 0 { told } else { right };
            let wrong = if wrong.0 == 0 { told } else { wrong };
            *differ.entry(reading).or_insert(0) += u32::from(wrong != answer);
        }
    }
    assert!(differ.values().all(|count| *count >= 10), "{differ:?}");
}

/// A room that is too small stands behind every other fault.
#[test]
fn rooms_too_small_for_faulty_descriptions() {
    let mut small = 0;
    for number in 0..CASES {
        let case = case(&[Operation::Write], 5, number);
        let refused = case.answer().is_err_and(|refusal| refusal.number() != 24);
        small += u32::from(refused && case.room < 48);
    }
    assert!(small > 500, "{small} cases");
}

/// A wrong reading of the widths: a point cut to its byte would often pass.
#[test]
fn points_over_a_byte_come_with_good_last_bytes() {
    let mut pass = 0;
    for number in 0..CASES {
        let case = case(&[Operation::Write], 5, number);
        let mut description = Description::from_bytes(&case.buffer).expect("it is whole");
        let over = |entry: &SeekEntry| entry.kind < SeekEntry::PHRASE && entry.from > 255;
        let mut cut = false;
        for track in description.tracks.iter_mut().filter(|track| track.fixed[1] == 1) {
            for entry in track.entries.iter_mut().filter(|entry| over(entry)) {
                entry.from &= 0xFF;
                cut = true;
            }
        }
        pass += u32::from(cut && write_file(&description, usize::MAX).is_ok());
    }
    assert!(pass > 10, "{pass} cases");
}

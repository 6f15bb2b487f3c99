//! The generator: every damage hits its clause, every clause comes up, and
//! what is accepted holds together.

use second::case::Operation;
use second::check::{plain_plays_the_same, rows_tile};
use second::clauses::{count, missing};
use second::file::open;
use second::generate::damage::{damaged, file_clauses};
use second::generate::file::FilePlan;
use second::generate::{all_pitches, any_file, case};
use second::plain::{flatten, plain_length};
use second::play::Performance;
use second::random::Random;
use second::refusal::Clause;
use second::soak::soak;
use second::track::Track;
use second::tune::worked_tune;

#[test]
fn undamaged_files_are_accepted() {
    for number in 0..500 {
        let mut random = Random::for_index(1, number);
        let file = FilePlan::new(&mut random).draft().bytes(&mut random);
        let melody = open(&file, file.len() as u32);
        assert!(melody.is_ok(), "file {number}: {:?}", melody.err());
    }
}

/// The clause that refuses the file, or that refuses one of its tracks.
fn refused_by(file: &[u8]) -> Option<Clause> {
    match open(file, file.len() as u32) {
        Err(refusal) => Some(refusal.clause),
        Ok(melody) => {
            let refused = |track| Performance::of(track).err();
            let tracks = melody.tracks.iter();
            tracks.filter_map(|(_, track)| refused(track)).map(|refusal| refusal.clause).next()
        }
    }
}

#[test]
fn every_damage_hits_its_clause() {
    for clause in file_clauses() {
        for number in 0..40 {
            let mut random = Random::for_index(2, number);
            let plan = FilePlan::new(&mut random);
            let file = damaged(&mut random, plan, &[clause]).bytes(&mut random);
            assert_eq!(refused_by(&file), Some(clause), "file {number}");
        }
    }
}

fn every_clause_comes_up(operation: Operation) {
    let counts = count(&[operation], 4_000, 3);
    assert_eq!(missing(&[operation], &counts), []);
    if operation != Operation::Pitch {
        assert!(counts[&None] > 1_000, "only {} accepted", counts[&None]);
    }
}

#[test]
fn every_clause_of_read_comes_up() {
    every_clause_comes_up(Operation::Read);
}

#[test]
fn every_clause_of_play_comes_up() {
    every_clause_comes_up(Operation::Play);
}

#[test]
fn every_clause_of_flatten_comes_up() {
    every_clause_comes_up(Operation::Flatten);
}

#[test]
fn every_clause_of_listing_comes_up() {
    every_clause_comes_up(Operation::Listing);
}

#[test]
fn every_clause_of_pitch_comes_up() {
    every_clause_comes_up(Operation::Pitch);
}

#[test]
fn every_clause_of_the_writer_comes_up() {
    every_clause_comes_up(Operation::Write);
    every_clause_comes_up(Operation::WriteBody);
}

#[test]
fn every_clause_of_items_and_entries_comes_up() {
    every_clause_comes_up(Operation::Items);
    every_clause_comes_up(Operation::Entries);
}

#[test]
fn missing_clauses_are_told() {
    let operations = [Operation::Flatten];
    let counts = count(&operations, 20, 3);
    assert!(missing(&operations, &counts).contains(&Clause::LengthPastLargest));
}

#[test]
fn answers_hold_together() {
    let tally = soak(3_000, 4).unwrap();
    assert_eq!(tally.files, 3_000);
    assert!(tally.accepted > 1_000);
    assert!(tally.played > 1_000);
    assert!(tally.flattened > 1_000);
    assert!(tally.written > 200);
    assert!(tally.bodies > 200);
    assert!(tally.again > 750 + tally.written);
}

/// The only track of the large file in that slot, by its number.
fn large_track(slot: u64, number: u64) -> Track {
    let mut random = Random::for_index(slot, number);
    let file = any_file(&mut random, Operation::Play, slot);
    open(&file, file.len() as u32).unwrap().tracks.remove(0).1
}

/// Lists whose first, a middle and last letter reaches an end mark, as far as
/// `sp` lets them.
#[test]
fn long_lists_are_stopped() {
    for (slot, first, last) in [(757, 1, 1), (2_507, 2, 60_000), (3_757, 10_000, 66_000)] {
        let mut accepted = 0;
        for number in 0..20 {
            let track = large_track(slot, number);
            let performance = Performance::of(&track).unwrap();
            accepted += u32::from(performance.message_count() <= 70_000);
            let letters = performance.order.len();
            let stops = |index: &usize| performance.sections[*index].stops;
            if track.seek.stop.is_none() {
                assert!(performance.order.last().is_some_and(stops));
                assert!(first <= letters && letters <= last, "{letters} letters");
                let list = track.seek.list_length() as usize;
                assert_eq!(letters == list, slot == 3_757);
            }
        }
        assert!(accepted >= 5, "{accepted} accepted");
    }
}

/// Stopped or not, these lists come to the numbers that they are made for.
#[test]
fn stopped_lists_keep_their_numbers() {
    let mut stopped = 0;
    for number in 0..20 {
        for (slot, rows) in [(507, 4_097..=4_098), (3_507, 4_094..=4_096)] {
            let track = large_track(slot, number);
            let performance = Performance::of(&track).unwrap();
            stopped += u32::from(performance.sections.iter().any(|section| section.stops));
            assert!(rows.contains(&performance.message_count()));
        }
        for (slot, bytes) in [(250, 65_537..=65_538), (2_250, 65_534..=65_536)] {
            let track = large_track(slot, number);
            let performance = Performance::of(&track).unwrap();
            assert!(bytes.contains(&plain_length(&performance, &track.sequence)));
        }
    }
    assert!(10 < stopped && stopped < 30, "{stopped} stopped");
}

#[test]
fn wrong_plain_forms_are_found() {
    let tune = worked_tune();
    let track = &open(&tune, 102).unwrap().tracks[0].1;
    let plain = flatten(&tune, 102, 2, 27).unwrap();
    let check = |plain: &[u8]| plain_plays_the_same(&tune, track, plain);
    assert_eq!(check(&plain), Ok(()));
    assert_eq!(
        check(&plain[..23]).unwrap_err(),
        "the plain form has another length than worked out"
    );
    let changed = |place: usize, value: u8| {
        let mut other = plain.clone();
        other[place] = value;
        check(&other).unwrap_err()
    };
    assert_eq!(changed(5, 0x2A), "the plain form plays something else");
    assert_eq!(changed(6, 0x15), "the plain form plays something else");
    assert_eq!(changed(4, 0x0B), "the plain form ends elsewhere");
    assert!(changed(5, 0x2D).starts_with("the plain form is no sequence"));
    let other_marks = "the plain form has other end marks";
    let marked_first = [&[0; 4], &plain[4..]].concat();
    assert_eq!(check(&marked_first).unwrap_err(), other_marks);
    let unmarked = [&plain[..23], &[0x80, 0x00, 0xFF, 0x00]].concat();
    assert_eq!(check(&unmarked).unwrap_err(), other_marks);
}

#[test]
fn wrong_rows_are_found() {
    let tune = worked_tune();
    let melody = open(&tune, 102).unwrap();
    assert_eq!(rows_tile(&melody, 102), Ok(()));
    for number in 1..5 {
        let mut other = melody.clone();
        other.rows[number].size += 1;
        assert!(rows_tile(&other, 102).is_err(), "row {number}");
        let mut other = melody.clone();
        other.rows.remove(number);
        assert!(rows_tile(&other, 102).is_err(), "row {number}");
    }
}

#[test]
fn cases_are_mostly_small_and_the_seed_decides() {
    let operations = [Operation::Read, Operation::Play];
    let cases: Vec<_> = (0..600).map(|number| case(&operations, 5, number)).collect();
    let again: Vec<_> = (0..600).map(|number| case(&operations, 5, number)).collect();
    assert_eq!(cases, again);
    assert_ne!(cases[0], case(&operations, 6, 0));
    let mut lengths: Vec<usize> = cases.iter().map(|case| case.buffer.len()).collect();
    lengths.sort();
    assert!(lengths[300] < 300, "the median is {}", lengths[300]);
    let reads = cases.iter().filter(|case| case.operation == Operation::Read).count();
    assert_eq!(reads, 300);
}

#[test]
fn all_pitches_come_once() {
    let mut pairs: Vec<(u32, u32)> = all_pitches().map(|case| (case.stated, case.row)).collect();
    pairs.sort();
    pairs.dedup();
    assert_eq!(pairs.len(), 65_536);
    assert_eq!(pairs.last(), Some(&(255, 255)));
    let accepted = all_pitches().filter(|case| case.answer().is_ok()).count();
    assert_eq!(accepted, 4 * 4 * 12 * 9);
}

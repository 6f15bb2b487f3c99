//! The generator of the writer's cases: every damage hits its clause, and the
//! sizes are those that matter.

use second::case::{Case, Operation};
use second::description::{BodyDescription, Description};
use second::file::open;
use second::frame::{chunk, whole_file};
use second::generate::case;
use second::generate::damage_describe::{damage, description_clauses};
use second::generate::describe::{good_description, good_table, layout_file};
use second::generate::word::{faulty_item, fits_voice, word_clauses};
use second::item::Voice;
use second::layout::description_of;
use second::random::Random;
use second::refusal::Clause;
use second::write::{write_body, write_file};
use std::collections::BTreeSet;

const ROOM: usize = 70_000;

fn cases(operation: Operation, count: u64) -> impl Iterator<Item = Case> {
    (0..count).map(move |number| case(&[operation], 7, number))
}

fn descriptions(count: u64) -> impl Iterator<Item = Description> {
    let written = cases(Operation::Write, count);
    written.map(|case| Description::from_bytes(&case.buffer).expect("it is whole"))
}

#[test]
fn undamaged_descriptions_are_written() {
    for number in 0..500 {
        let mut random = Random::for_index(1, number);
        let description = good_description(&mut random);
        assert!(write_file(&description, ROOM).is_ok(), "description {number}");
        for voice in [Voice::Score, Voice::Pcm] {
            let table = good_table(&mut random, voice);
            assert!(write_body(&BodyDescription { voice, table }, ROOM).is_ok());
        }
    }
}

#[test]
fn every_damage_of_a_description_hits_its_clause() {
    for clause in description_clauses() {
        for number in 0..60 {
            let mut random = Random::for_index(2, number);
            let mut description = good_description(&mut random);
            damage(&mut random, &mut description, clause);
            let refused = write_file(&description, ROOM).unwrap_err();
            assert_eq!(refused.clause, clause, "description {number}: {description:02x?}");
        }
    }
}

#[test]
fn every_faulty_item_has_its_fault_first() {
    for clause in word_clauses() {
        for voice in [Voice::Score, Voice::Pcm] {
            for number in 0..if fits_voice(clause, voice) { 100 } else { 0 } {
                let mut random = Random::for_index(3, number);
                let mut table = good_table(&mut random, voice);
                let item = faulty_item(&mut random, voice, clause, &mut table.source);
                let place = random.between(0, table.items.len());
                table.items.insert(place, item);
                let refused = write_body(&BodyDescription { voice, table }, ROOM).unwrap_err();
                assert_eq!((refused.clause, refused.place), (clause, place), "{item:x?}");
            }
        }
    }
}

#[test]
fn files_in_the_layout_are_written_back() {
    for number in 0..500 {
        let file = layout_file(&mut Random::for_index(4, number));
        let melody = open(&file, file.len() as u32).unwrap();
        let description = description_of(&file, &melody).unwrap();
        assert_eq!(write_file(&description, file.len()), Ok(file));
    }
}

/// What is changed in each takes the file out of the layout.
#[test]
fn files_outside_the_layout_are_told() {
    let file = layout_file(&mut Random::for_index(4, 0));
    let described = |file: &[u8]| {
        let melody = open(file, file.len() as u32).unwrap();
        description_of(file, &melody).map(|description| description.tracks.len())
    };
    assert_eq!(described(&file), Some(1));
    let mut other_code = file.clone();
    other_code[file.len() - 1] ^= 1;
    assert_eq!(described(&other_code), None);
    let (contents, track) = file[8..file.len() - 2].split_at(13);
    let more = chunk(b"OPDA", &[]);
    assert_eq!(described(&whole_file(&[contents, track, &more].concat())), None);
    let long_contents = chunk(b"CNTI", &[0; 6]);
    assert_eq!(described(&whole_file(&[&long_contents, track].concat())), None);
    let of_tracks = |count: u8| {
        let tracks = (0..count).map(|number| [b"MTR", &[number][..], &track[4..]].concat());
        described(&whole_file(&[contents, &tracks.collect::<Vec<_>>().concat()].concat()))
    };
    assert_eq!((of_tracks(16), of_tracks(17)), (Some(16), None));
}

/// A byte of data may look like a final comma, and a comma may stand behind it.
#[test]
fn final_commas_are_told() {
    let exclusive = [&[0x00, 0xFF, 0xF0, 0x28][..], &[0; 39], &[0xF7]].concat();
    let body = [&exclusive[..], &[0; 4]].concat();
    assert_eq!(exclusive.len(), usize::from(b','));
    let described = |seek: &[u8]| {
        let list = [chunk(b"MspI", seek), chunk(b"Mtsq", &body)].concat();
        let track = chunk(b"MTR0", &[&[0, 0, 2, 2, 0, 0], &list[..]].concat());
        let file = whole_file(&[chunk(b"CNTI", &[0; 5]), track].concat());
        let melody = open(&file, file.len() as u32).unwrap();
        description_of(&file, &melody).is_some()
    };
    assert!(described(b"st:\0\0\0,"));
    assert!(!described(b"st:\0\0\0,,"));
    assert!(described(b"SL:"));
    assert!(!described(b"SL:,"));
}

#[test]
fn descriptions_are_mostly_small() {
    for operation in [Operation::Write, Operation::WriteBody] {
        let mut lengths: Vec<usize> =
            cases(operation, 1_000).map(|case| case.buffer.len()).collect();
        lengths.sort();
        assert!(lengths[500] < 200, "the median is {}", lengths[500]);
        assert!(lengths[850] < 400, "{} in {operation:?}", lengths[850]);
    }
}

/// Exactly the largest and one byte on either side, with just room and more.
#[test]
fn lengths_around_the_largest_come_up() {
    for operation in [Operation::Write, Operation::WriteBody] {
        let mut told = BTreeSet::new();
        for case in cases(operation, 8_000) {
            let answer = case.answer().map_err(|refusal| refusal.clause);
            match answer {
                Ok(text) if text.starts_with("bytes 65535\n") => {
                    told.insert((0, case.room > 65_535))
                }
                Ok(text) if text.starts_with("bytes 65536\n") => {
                    told.insert((1, case.room > 65_536))
                }
                Err(Clause::FileOverLargest | Clause::BodyOverLargest) => {
                    told.insert((2, case.room > 65_536))
                }
                _ => false,
            };
        }
        assert_eq!(told.len(), 6, "{told:?}");
    }
}

#[test]
fn numbers_of_tracks_and_their_shapes() {
    let all: Vec<Description> = descriptions(4_000).collect();
    let counts: BTreeSet<usize> = all.iter().map(|description| description.tracks.len()).collect();
    for count in [0, 1, 2, 15, 16, 17, 18, 255] {
        assert!(counts.contains(&count), "{count} tracks");
    }
    let tracks = || all.iter().flat_map(|description| &description.tracks);
    for sequence_type in [0, 1] {
        let of_type = || tracks().filter(|track| track.fixed[1] == sequence_type);
        assert!(of_type().filter(|track| track.entries.is_empty()).count() > 100);
        assert!(of_type().filter(|track| !track.entries.is_empty()).count() > 1_000);
    }
    let points: BTreeSet<u32> = tracks()
        .filter(|track| track.fixed[1] == 1)
        .flat_map(|track| track.entries.iter().filter(|entry| entry.kind < 2))
        .map(|entry| entry.from)
        .collect();
    assert!(points.contains(&255) && points.contains(&256));
    let kinds: BTreeSet<u32> =
        tracks().flat_map(|track| &track.table.items).map(|item| item.word.kind()).collect();
    assert_eq!(kinds, (0..32).collect());
}

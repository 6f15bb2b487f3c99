//! Descriptions of files without a fault: of tracks made for them, and of files
//! in the writer's layout.

use crate::description::{Description, ItemTable, ScoreTrack, SeekEntry};
use crate::file::open;
use crate::generate::file::{FilePlan, Part, TIME_CODES};
use crate::generate::seek::{Entry, SeekPlan};
use crate::generate::sequence::SequencePlan;
use crate::generate::word::good_item;
use crate::item::Voice;
use crate::layout::description_of;
use crate::numbers::number_at;
use crate::random::Random;
use crate::word::{Word, WordItem};

pub fn good_table(random: &mut Random, voice: Voice) -> ItemTable {
    let before = if random.percent(20) { random.between(1, 6) } else { 0 };
    let mut source = random.bytes(before);
    let count = match random.below(100) {
        0..=29 => 1,
        30..=84 => random.between(2, 5),
        85..=97 => random.between(5, 12),
        _ => random.between(12, 30),
    };
    let items = (0..count).map(|_| good_item(random, voice, &mut source)).collect();
    let behind = if random.percent(30) { random.between(1, 5) } else { 0 };
    source.extend(random.bytes(behind));
    ItemTable { items, source }
}

/// The bytes of each item; one at fault has none.
pub fn body_plan(table: &ItemTable) -> SequencePlan {
    let bytes = |item: &WordItem| {
        let mut bytes = Vec::new();
        let _ = item.write(Voice::Score, &table.source, &mut bytes);
        bytes
    };
    SequencePlan { items: table.items.iter().map(bytes).collect() }
}

pub fn good_track(random: &mut Random, number: u8, phrases: bool) -> ScoreTrack {
    let table = good_table(random, Voice::Score);
    let fixed = fixed_bytes(random, phrases);
    let entries = good_entries(random, &table, phrases);
    ScoreTrack { number, fixed, entries, table }
}

/// A track of one NOP or end mark.
pub fn small_track(random: &mut Random, number: u8) -> ScoreTrack {
    let word = random.pick(&[Word::NOP, Word::MARK]);
    let table = ItemTable { items: vec![WordItem { duration: 0, word }], source: Vec::new() };
    let phrases = random.percent(30);
    ScoreTrack { number, fixed: fixed_bytes(random, phrases), entries: Vec::new(), table }
}

fn fixed_bytes(random: &mut Random, phrases: bool) -> [u8; 6] {
    let (base_d, base_g) = (random.pick(&TIME_CODES), random.pick(&TIME_CODES));
    [0, u8::from(phrases), base_d, base_g, random.byte(), random.byte()]
}

fn good_entries(random: &mut Random, table: &ItemTable, phrases: bool) -> Vec<SeekEntry> {
    if random.percent(15) {
        return Vec::new();
    }
    let body = body_plan(table);
    let plan = match phrases {
        true if random.percent(3) => long_list(random, &body),
        true => SeekPlan::phrases(random, &body),
        false => SeekPlan::stream(random, &body).unwrap_or_default(),
    };
    let without_list = phrases && random.percent(10);
    let kept = plan.entries.iter().filter(|entry| !without_list || entry.rank() == 2);
    kept.map(|entry| seek_entry(random, entry)).collect()
}

/// A list of so many letters that the largest positions lie in it.
fn long_list(random: &mut Random, body: &SequencePlan) -> SeekPlan {
    let mut plan = SeekPlan::default();
    plan.put(Entry::phrase(b'K', 0, body.length()));
    plan.put(Entry::new(*b"SL", vec![b'K'; random.pick(&[254, 255, 256])]));
    plan.put(Entry::new(*b"st", vec![random.byte_between(0, 254)]));
    plan.put(Entry::new(*b"sp", vec![254]));
    if plan.list().len() > 254 {
        plan.put(Entry::new(*b"sp", vec![255]));
        plan.put(Entry::new(*b"st", vec![random.pick(&[0, 254, 255])]));
    }
    plan
}

/// The entry as it is put in; what it does not use is anything.
fn seek_entry(random: &mut Random, entry: &Entry) -> SeekEntry {
    let number = |at: usize| number_at(&entry.data, at).unwrap_or(0);
    let point = match entry.data[..] {
        [position] => u32::from(position),
        _ => number(0),
    };
    let mut made = match &entry.tag {
        b"st" => SeekEntry::start(point),
        b"sp" => SeekEntry::stop(point),
        b"SL" => SeekEntry::list(entry.data.clone()),
        [_, letter] => return SeekEntry::phrase(*letter, number(0), number(4)),
    };
    if random.percent(40) {
        made.letter = random.byte();
        made.to = random.next() as u32;
    }
    made
}

/// A number that no track has, small ones and the largest often.
pub fn free_number(random: &mut Random, tracks: &[ScoreTrack]) -> u8 {
    loop {
        let number = match random.below(10) {
            0..=5 => random.byte_between(0, 20),
            6 => 255,
            _ => random.byte(),
        };
        if tracks.iter().all(|track| track.number != number) {
            return number;
        }
    }
}

pub fn good_description(random: &mut Random) -> Description {
    let count = match random.below(100) {
        0..=54 => 1,
        55..=84 => 2,
        85..=97 => random.between(3, 5),
        _ => random.between(15, 16),
    };
    let contents = [random.byte(), random.byte(), random.byte(), random.byte(), random.byte()];
    let mut tracks = Vec::new();
    for _ in 0..count {
        let number = free_number(random, &tracks);
        let phrases = random.percent(50);
        tracks.push(match count > 5 {
            true => small_track(random, number),
            false => good_track(random, number, phrases),
        });
    }
    Description { contents, tracks }
}

/// A file that the writer gives back from what was read.
pub fn layout_file(random: &mut Random) -> Vec<u8> {
    let mut plan = FilePlan::of_parts(random, Vec::new());
    let count = if random.percent(70) { 1 } else { random.between(2, 3) };
    for _ in 0..count {
        plan.add_track(random, Some(Voice::Score), None);
    }
    for part in &mut plan.parts {
        if let Part::Track(track) = part {
            track.setup = None;
            track.seek.iter_mut().for_each(|seek| seek.final_comma = false);
        }
    }
    let mut draft = plan.draft();
    for track in &mut draft.root.children {
        track.children.sort_by_key(|chunk| chunk.id);
    }
    draft.bytes(random)
}

/// What such a file is written from.
pub fn read_description(random: &mut Random) -> Description {
    let file = layout_file(random);
    let melody = open(&file, file.len() as u32).expect("the file is good");
    description_of(&file, &melody).expect("the file is in that layout")
}

//! The rare large files: full ones, ones of many chunks, long lists, and
//! lists whose plain form or rows come to a given number, with end marks that
//! stop them or none.

use crate::generate::event::{exclusive_of, NOP};
use crate::generate::file::{FilePlan, Part, TrackPlan};
use crate::generate::seek::{Entry, SeekPlan};
use crate::generate::sequence::{item, mark, SequencePlan};
use crate::generate::tree::{Chunk, Draft};
use crate::item::Voice;
use crate::numbers::LARGEST;
use crate::random::Random;

/// A file with that many rows.
pub fn many_chunks(random: &mut Random, rows: usize) -> Draft {
    let mut draft = FilePlan::new(random).draft();
    let inside: usize = draft.root.children.iter().map(|child| 1 + child.children.len()).sum();
    let place = random.between(1, draft.root.children.len());
    let leaves = (0..(rows - 1 - inside) as u32)
        .map(|number| Chunk::leaf((0x7000_0000 + number).to_be_bytes(), Vec::new()));
    draft.root.children.splice(place..place, leaves);
    draft
}

/// The same, and perhaps one more that has the ID of the first leaf.
pub fn many_chunks_and_twin(random: &mut Random, rows: usize) -> Draft {
    let mut draft = many_chunks(random, rows);
    if random.percent(50) {
        draft.root.children.push(Chunk::leaf(0x7000_0000_u32.to_be_bytes(), Vec::new()));
    }
    draft
}

/// A file of `length` bytes, one chunk of which fills it up.
pub fn full_file(random: &mut Random, length: usize) -> Draft {
    let mut plan = FilePlan::new(random);
    let track = plan.track(random, None, None);
    if random.percent(50) {
        let messages = track.setup.get_or_insert_with(Vec::new);
        messages.extend((0..150).map(|_| exclusive_of(random, 255)));
    } else {
        let count = random.between(2_000, 5_000);
        let marks = if random.percent(40) { random.between(1, 3) } else { 0 };
        let sequence = SequencePlan::marked(random, track.voice, count, marks);
        let (id, voice, phrases) = (track.id, track.voice, track.phrases);
        *track = TrackPlan::of_sequence(random, id, voice, phrases, sequence);
    }
    let mut draft = plan.draft();
    let without = 8 + draft.root.body().len() + 2;
    let filling = length.saturating_sub(without + 8);
    if random.percent(50) {
        draft.root.children.push(Chunk::leaf(*b"FILL", vec![0; filling]));
    } else {
        draft.root.children[0].fixed.extend(vec![0; filling + 8]);
    }
    draft
}

/// A body and the phrases and list over it.
struct Song {
    items: Vec<Vec<u8>>,
    seek: SeekPlan,
}

impl Song {
    fn length(&self) -> u32 {
        self.items.concat().len() as u32
    }

    /// Puts an end mark after all items and a rest behind it, and into the list
    /// a letter whose phrase runs from `start` over that mark.
    fn put_stop(&mut self, start: u32, place: usize) {
        self.items.extend([mark(), item(1, &NOP)]);
        self.seek.put(Entry::phrase(b'S', start, self.length()));
        let mut list = self.seek.list();
        list.insert(place, b'S');
        self.seek.put(Entry::new(*b"SL", list));
    }

    /// Stops the list at its end or not. The phrase of the stop starts at its
    /// mark, so that it plays nothing and lasts nothing; more letters after it
    /// are not played.
    fn stopped_or_not(mut self, random: &mut Random) -> Song {
        if random.percent(60) {
            return self;
        }
        let list = self.seek.list();
        self.put_stop(self.length(), list.len());
        let more: Vec<u8> = (0..random.below(40)).map(|_| random.pick(&list)).collect();
        self.seek.put(Entry::new(*b"SL", [self.seek.list(), more].concat()));
        self
    }

    fn file(mut self, random: &mut Random, voice: Voice) -> Draft {
        let id = if voice == Voice::Score { *b"MTR0" } else { *b"ATR0" };
        if random.percent(50) {
            self.items.push(mark());
        }
        let sequence = SequencePlan { items: self.items };
        let mut track = TrackPlan::of_sequence(random, id, voice, true, sequence);
        track.seek = Some(self.seek);
        track.setup = None;
        FilePlan::of_parts(random, vec![Part::Track(track)]).draft()
    }
}

/// The letter of a long list whose phrase reaches an end mark.
#[derive(Clone, Copy)]
pub enum Stop {
    Nowhere,
    First,
    Middle,
    Last,
}

impl Stop {
    /// Where the letter goes in a list of that many others; one in the middle is
    /// often near enough to the first for what plays to be small.
    fn place(self, random: &mut Random, letters: usize) -> Option<usize> {
        match self {
            Stop::Nowhere => None,
            Stop::First => Some(0),
            Stop::Middle if random.percent(50) => Some(random.between(1, 60)),
            Stop::Middle => Some(random.between(1, letters - 1)),
            Stop::Last => Some(letters),
        }
    }
}

/// Tens of thousands of letters over phrases with few, many or no messages.
pub fn long_list(random: &mut Random, stop: Stop) -> Draft {
    let count = random.pick(&[1, 3, 50, 1_000, 4_000]);
    let silent = random.percent(40);
    let items: Vec<Vec<u8>> = (0..count)
        .map(|_| match silent {
            true => item(random.pick(&[0, 1, 16_511]), &NOP),
            false => item(random.pick(&[0, 1, 16_511]), &[0x29, 0x01]),
        })
        .collect();
    let mut song = Song { items, seek: SeekPlan::default() };
    let length = song.length();
    song.seek.put(Entry::phrase(b'a', 0, length));
    song.seek.put(Entry::phrase(b'R', 0, 0));
    let room = LARGEST - length as usize - 120;
    let letters = room - random.below(room / 2);
    let list = (0..letters).map(|_| if random.percent(5) { b'R' } else { b'a' }).collect();
    song.seek.put(Entry::new(*b"SL", list));
    if let Some(place) = stop.place(random, letters) {
        song.put_stop(random.pick(&[0, length]), place);
    }
    if random.percent(30) {
        song.seek.put(Entry::new(*b"sp", vec![random.byte()]));
    }
    song.file(random, Voice::Score)
}

/// A list of two phrases, each an exclusive and one step of rest; the plain
/// form comes to exactly `length` bytes. Each letter takes 4 bytes and the
/// exclusive's size, the last rest and the end mark take 7.
pub fn plain_of(random: &mut Random, length: usize) -> Draft {
    let first_size = random.between(3, 120);
    let total = length - 7;
    let times = total / (4 + first_size) - 1;
    let second_size = total - times * (4 + first_size) - 4;
    let mut items = Vec::new();
    for size in [first_size, second_size] {
        items.push(item(0, &exclusive_of(random, size)));
        items.push(item(1, &NOP));
    }
    let border = items[..2].concat().len() as u32;
    let end = items.concat().len() as u32;
    let mut seek = SeekPlan::default();
    seek.put(Entry::phrase(b'x', 0, border));
    seek.put(Entry::phrase(b'E', border, end));
    let mut list = vec![b'x'; times];
    list.insert(random.between(0, times), b'E');
    seek.put(Entry::new(*b"SL", list));
    let voice = random.pick(&[Voice::Score, Voice::Pcm]);
    Song { items, seek }.stopped_or_not(random).file(random, voice)
}

/// A list of long rests, 4 bytes each in the plain form, near the most that a
/// plain form may have; a last note or a short rest stands after them.
pub fn rests_of(random: &mut Random) -> Draft {
    let in_phrase = random.pick(&[43, 127, 129]);
    let letters = 16_383 / in_phrase + random.between(0, 2) - 1;
    let mut items = vec![item(16_511, &NOP); in_phrase];
    let border = items.concat().len() as u32;
    items.push(item(0, &[0x69, 0x01]));
    items.push(item(1, &NOP));
    let end = items.concat().len() as u32;
    let mut seek = SeekPlan::default();
    seek.put(Entry::phrase(b'K', 0, border));
    seek.put(Entry::phrase(b'I', border, end));
    let mut list = vec![b'K'; letters];
    if random.percent(50) {
        list.insert(random.between(0, letters), b'I');
    }
    seek.put(Entry::new(*b"SL", list));
    Song { items, seek }.stopped_or_not(random).file(random, Voice::Score)
}

/// A list that plays exactly `rows` rows.
pub fn rows_of(random: &mut Random, rows: usize) -> Draft {
    let note = item(0, &[0x69, 0x01]);
    let rest = item(1, &NOP);
    let many = random.between(20, 90);
    let mut items = vec![note.clone(); many];
    items.extend([rest.clone(), note, rest]);
    let border = items[..=many].concat().len() as u32;
    let end = items.concat().len() as u32;
    let mut seek = SeekPlan::default();
    seek.put(Entry::phrase(b'x', 0, border));
    seek.put(Entry::phrase(b'y', border, end));
    let list = [vec![b'x'; rows / many], vec![b'y'; rows % many]].concat();
    seek.put(Entry::new(*b"SL", list));
    Song { items, seek }.stopped_or_not(random).file(random, Voice::Score)
}

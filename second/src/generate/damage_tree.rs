//! Damage to the file chunk, the chunk lists and the fixed bytes of tracks.

use crate::generate::file::{TrackPlan, TIME_CODES};
use crate::generate::tree::{Chunk, Draft};
use crate::item::Voice;
use crate::random::Random;
use crate::refusal::Clause;
use crate::track::{part_of, Part};

pub fn damage_tree(random: &mut Random, draft: &mut Draft, clause: Clause) {
    match clause.number() {
        2 | 3 => damage_outside(random, draft, clause),
        8 => damage_fixed(random, &mut draft.root, clause),
        9 => damage_chunks(random, &mut draft.root, clause),
        _ => damage_lists(random, &mut draft.root, clause),
    }
}

fn damage_outside(random: &mut Random, draft: &mut Draft, clause: Clause) {
    let size = draft.root.body().len() as u32 + 2;
    match clause {
        Clause::FileUnderTen => draft.cut = Some(random.below(10)),
        Clause::FileNotMmmd => {
            let place = random.below(4);
            draft.root.id[place] ^= random.pick(&[0x20, 0x01, 0x80, 0xFF]);
        }
        Clause::FileSizeTooSmall => {
            let small = [size - 1, size - 2, size.saturating_sub(8), 0];
            draft.root.size = Some(random.pick(&small));
        }
        _ => draft.root.size = Some(too_large(random, size)),
    }
}

/// A size over `size`: a little, a lot, or so that adding 8 wraps round.
fn too_large(random: &mut Random, size: u32) -> u32 {
    let wrapping = [0xFFFF_FFFF, 0x7FFF_FFFF, 0x8000_0000, 0xFFFF_FFF8, 0x0001_0000 + size];
    match random.below(2) {
        0 => size + random.between(1, 8) as u32,
        _ => random.pick(&wrapping),
    }
}

fn damage_lists(random: &mut Random, root: &mut Chunk, clause: Clause) {
    match clause {
        Clause::TopHeaderUnderEight => stray_bytes(random, root),
        Clause::TopSizePastEnd => size_past_end(random, root),
        Clause::TopIdAgain => repeat_id(random, root),
        Clause::NoFirstChunk => root.children.clear(),
        Clause::FirstNotContents => displace_contents(random, root),
        Clause::ContentsUnderFive => {
            let length = random.below(5);
            root.children.iter_mut().take(1).for_each(|child| child.fixed.truncate(length));
        }
        Clause::NoTrack => lose_tracks(random, root),
        _ => {
            let voice = random.pick(&[Voice::Score, Voice::Pcm]);
            let track = track_of(random, root, voice);
            match clause {
                Clause::TrackHeaderUnderEight => stray_bytes(random, track),
                Clause::TrackSizePastEnd => size_past_end(random, track),
                _ => repeat_id(random, track),
            }
        }
    }
}

fn lose_tracks(random: &mut Random, root: &mut Chunk) {
    root.children.retain(|child| part_of(child.id) == Part::Leaf);
    if random.percent(50) && !root.has_child(*b"OPDA") {
        root.children.push(Chunk::leaf(*b"OPDA", vec![0; 3]));
    }
}

/// Too few bytes for a header; now and then they begin as one that stood before.
fn stray_bytes(random: &mut Random, parent: &mut Chunk) {
    let count = random.between(1, 7);
    parent.tail = if random.percent(30) { vec![0; count] } else { random.bytes(count) };
    if random.percent(30) {
        if let Some(id) = earlier_id(random, parent, parent.children.len()) {
            parent.tail = id.iter().copied().chain(random.bytes(3)).take(count).collect();
        }
    }
}

/// The ID of a child before an index.
fn earlier_id(random: &mut Random, parent: &Chunk, index: usize) -> Option<[u8; 4]> {
    let earlier = &parent.children[..index];
    (!earlier.is_empty()).then(|| earlier[random.below(earlier.len())].id)
}

/// The last child reaches a little too far, or any child very far; now and then it also has the ID of one before it.
fn size_past_end(random: &mut Random, parent: &mut Chunk) {
    let count = parent.children.len();
    let huge = [0xFFFF_FFFF, 0x7FFF_FFFF, 0x8000_0000, 0xFFFF_FFF0, 0x0001_0000];
    let far = random.percent(50);
    let index = if far { random.below(count.max(1)) } else { count.saturating_sub(1) };
    let extra = random.between(1, 3) as u32;
    let far_size = random.pick(&huge);
    let again = if random.percent(30) { earlier_id(random, parent, index) } else { None };
    if let Some(child) = parent.children.get_mut(index) {
        let right = child.body().len() as u32;
        child.size = Some(if far { far_size } else { right + extra });
        child.id = again.unwrap_or(child.id);
    }
}

fn repeat_id(random: &mut Random, parent: &mut Chunk) {
    let count = parent.children.len();
    if count == 0 {
        return;
    }
    let first = random.below(count);
    let second = random.between(first + 1, count);
    let mut copy = parent.children[first].clone();
    if random.percent(50) {
        copy = Chunk::leaf(copy.id, Vec::new());
    }
    parent.children.insert(second, copy);
}

fn displace_contents(random: &mut Random, root: &mut Chunk) {
    let count = root.children.len();
    match random.below(3) {
        0 if count > 1 => root.children.swap(0, 1),
        1 if count > 1 => drop(root.children.remove(0)),
        _ => root.children.iter_mut().take(1).for_each(|child| child.id = *b"CNTi"),
    }
}

/// A readable track of that voice, made where there is none.
fn track_of<'a>(random: &mut Random, root: &'a mut Chunk, voice: Voice) -> &'a mut Chunk {
    let part = if voice == Voice::Score { Part::Score } else { Part::Pcm };
    let fits =
        |child: &Chunk| part_of(child.id) == part && child.fixed.len() == 6 && child.fixed[0] == 0;
    let fitting: Vec<usize> =
        (0..root.children.len()).filter(|index| fits(&root.children[*index])).collect();
    let index = if fitting.is_empty() {
        let stem = if voice == Voice::Score { b"MTR" } else { b"ATR" };
        let ids = (0..=255).map(|last| [stem[0], stem[1], stem[2], last]);
        let free = ids.clone().find(|id| !root.has_child(*id)).unwrap_or(*b"MTR0");
        let phrases = random.percent(50);
        root.children.push(TrackPlan::new(random, free, voice, phrases).chunk());
        root.children.len() - 1
    } else {
        random.pick(&fitting)
    };
    &mut root.children[index]
}

fn voice_of(clause: Clause) -> Voice {
    match clause {
        Clause::ScoreEmpty
        | Clause::ScoreFormatOverTwo
        | Clause::ScoreUnderSix
        | Clause::ScoreSequenceType
        | Clause::ScoreTimeBaseD
        | Clause::ScoreTimeBaseG
        | Clause::ScoreChunkNotAllowed
        | Clause::ScoreSequenceMissing => Voice::Score,
        _ => Voice::Pcm,
    }
}

fn damage_fixed(random: &mut Random, root: &mut Chunk, clause: Clause) {
    let track = track_of(random, root, voice_of(clause));
    match clause {
        Clause::ScoreEmpty | Clause::PcmEmpty => *track = Chunk::leaf(track.id, Vec::new()),
        Clause::ScoreUnderSix | Clause::PcmUnderSix => {
            let length = random.between(1, 5);
            *track = Chunk::leaf(track.id, track.fixed[..length].to_vec());
        }
        Clause::ScoreFormatOverTwo => track.fixed[0] = bad_byte(random, 3),
        Clause::PcmFormatOverZero => track.fixed[0] = bad_byte(random, 1),
        Clause::ScoreSequenceType | Clause::PcmSequenceType => {
            track.fixed[1] = bad_byte(random, 2);
        }
        Clause::ScoreTimeBaseD => track.fixed[2] = bad_time_code(random),
        Clause::ScoreTimeBaseG => track.fixed[3] = bad_time_code(random),
        Clause::PcmTimeBaseD => track.fixed[4] = bad_time_code(random),
        _ => track.fixed[5] = bad_time_code(random),
    }
}

/// A byte from `least` up; `least` itself comes often.
fn bad_byte(random: &mut Random, least: u8) -> u8 {
    match random.below(3) {
        0 => least,
        1 => 0xFF,
        _ => random.byte_between(least, 0xFF),
    }
}

fn bad_time_code(random: &mut Random) -> u8 {
    loop {
        let near = random.pick(&[0x04, 0x0F, 0x14, 0x1F, 0x20, 0x22, 0x82, 0xFF]);
        let code = if random.percent(60) { near } else { random.byte() };
        if !TIME_CODES.contains(&code) {
            return code;
        }
    }
}

fn damage_chunks(random: &mut Random, root: &mut Chunk, clause: Clause) {
    let voice = voice_of(clause);
    let track = track_of(random, root, voice);
    match clause {
        Clause::ScoreChunkNotAllowed => {
            let ids = [*b"Atsq", *b"AspI", *b"Awa\x01", *b"Mtsp", *b"MtsQ", *b"CNTI", *b"MTR0"];
            insert_leaf(random, track, &ids);
        }
        Clause::PcmChunkNotAllowed => {
            let ids = [*b"Mtsq", *b"MspI", *b"Awa\0", *b"Awa?", *b"Awa\xFF", *b"Aws\x01"];
            insert_leaf(random, track, &ids);
        }
        Clause::WaveMissing => track.children.retain(|child| !child.id.starts_with(b"Awa")),
        _ => track.children.retain(|child| !child.id.ends_with(b"tsq")),
    }
}

fn insert_leaf(random: &mut Random, track: &mut Chunk, ids: &[[u8; 4]]) {
    let leaf = Chunk::leaf(random.pick(ids), vec![0; 4]);
    let place = random.between(0, track.children.len());
    track.children.insert(place, leaf);
}

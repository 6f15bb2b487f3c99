//! Plans of whole files: contents, tracks and closed leaves.

use crate::generate::event::exclusive;
use crate::generate::seek::SeekPlan;
use crate::generate::sequence::SequencePlan;
use crate::generate::tree::{Chunk, Draft};
use crate::item::Voice;
use crate::numbers::Id;
use crate::random::Random;

pub const TIME_CODES: [u8; 8] = [0x00, 0x01, 0x02, 0x03, 0x10, 0x11, 0x12, 0x13];

#[derive(Clone, Debug)]
pub struct TrackPlan {
    pub voice: Voice,
    pub id: Id,
    pub phrases: bool,
    pub fixed: [u8; 6],
    pub seek: Option<SeekPlan>,
    pub setup: Option<Vec<Vec<u8>>>,
    pub sequence: SequencePlan,
    pub waves: Vec<Chunk>,
    /// Seed of the order of the sub-chunks.
    pub turn: u64,
}

impl TrackPlan {
    pub fn new(random: &mut Random, id: Id, voice: Voice, phrases: bool) -> TrackPlan {
        let sequence = SequencePlan::new(random, voice);
        TrackPlan::of_sequence(random, id, voice, phrases, sequence)
    }

    pub fn of_sequence(
        random: &mut Random,
        id: Id,
        voice: Voice,
        phrases: bool,
        sequence: SequencePlan,
    ) -> TrackPlan {
        let seek = match phrases {
            true => Some(SeekPlan::phrases(random, &sequence)),
            false => SeekPlan::stream(random, &sequence),
        };
        let fixed = fixed_bytes(random, voice, phrases);
        let setup = random.percent(20).then(|| setup_messages(random));
        let waves = match voice {
            Voice::Score => Vec::new(),
            Voice::Pcm => wave_chunks(random),
        };
        let turn = random.next();
        TrackPlan { voice, id, phrases, fixed, seek, setup, sequence, waves, turn }
    }

    pub fn seek(&mut self) -> &mut SeekPlan {
        self.seek.get_or_insert_with(SeekPlan::default)
    }

    pub fn chunk(&self) -> Chunk {
        let [seek, setup, sequence] = match self.voice {
            Voice::Score => [*b"MspI", *b"Mtsu", *b"Mtsq"],
            Voice::Pcm => [*b"AspI", *b"Atsu", *b"Atsq"],
        };
        let mut children = vec![Chunk::leaf(sequence, self.sequence.bytes())];
        children.extend(self.seek.iter().map(|plan| Chunk::leaf(seek, plan.bytes())));
        children.extend(self.setup.iter().map(|plan| Chunk::leaf(setup, plan.concat())));
        children.extend(self.waves.iter().cloned());
        Random::new(self.turn).shuffle(&mut children);
        Chunk { children, ..Chunk::leaf(self.id, self.fixed.to_vec()) }
    }
}

fn fixed_bytes(random: &mut Random, voice: Voice, phrases: bool) -> [u8; 6] {
    let base_d = random.pick(&TIME_CODES);
    let base_g = random.pick(&TIME_CODES);
    let free = [random.byte(), random.byte()];
    let sequence_type = u8::from(phrases);
    match voice {
        Voice::Score => [0, sequence_type, base_d, base_g, free[0], free[1]],
        Voice::Pcm => [0, sequence_type, free[0], free[1], base_d, base_g],
    }
}

pub fn setup_messages(random: &mut Random) -> Vec<Vec<u8>> {
    let count = random.between(1, 3);
    (0..count).map(|_| exclusive(random)).collect()
}

fn wave_chunks(random: &mut Random) -> Vec<Chunk> {
    let mut numbers: Vec<u8> = (0x01..=0x3E).collect();
    random.shuffle(&mut numbers);
    let mut chosen = vec![random.pick(&[0x01, 0x3E, numbers[0]])];
    let more = if random.percent(10) { random.between(1, 5) } else { random.below(2) };
    numbers.retain(|number| *number != chosen[0]);
    chosen.extend(&numbers[..more]);
    let chunks = chosen.iter().map(|number| {
        let length = random.below(8);
        Chunk::leaf([b'A', b'w', b'a', *number], random.bytes(length))
    });
    chunks.collect()
}

#[derive(Clone, Debug)]
pub enum Part {
    Track(TrackPlan),
    Leaf(Chunk),
}

#[derive(Clone, Debug)]
pub struct FilePlan {
    pub contents: Vec<u8>,
    pub parts: Vec<Part>,
    pub right_code: bool,
}

impl FilePlan {
    /// A file that the paper accepts.
    pub fn new(random: &mut Random) -> FilePlan {
        let rest = if random.percent(25) { random.below(12) } else { 0 };
        let contents = random.bytes(5 + rest);
        let right_code = random.percent(85);
        let mut plan = FilePlan { contents, parts: Vec::new(), right_code };
        let readable = match random.below(100) {
            0..=4 => 0,
            5..=74 => 1,
            75..=92 => 2,
            _ => random.between(3, 5),
        };
        for _ in 0..readable {
            plan.add_track(random, None, None);
        }
        let closed = if random.percent(35) { random.between(1, 3) } else { 0 };
        for _ in 0..closed.max(usize::from(readable == 0)) {
            plan.add_closed_track(random);
        }
        if random.percent(20) {
            plan.add_leaf(random);
        }
        random.shuffle(&mut plan.parts);
        plan
    }

    /// A file of these parts after five bytes of contents.
    pub fn of_parts(random: &mut Random, parts: Vec<Part>) -> FilePlan {
        FilePlan { contents: random.bytes(5), parts, right_code: true }
    }

    /// Adds a readable track and gives its place among the parts.
    pub fn add_track(
        &mut self,
        random: &mut Random,
        voice: Option<Voice>,
        phrases: Option<bool>,
    ) -> usize {
        let any_voice = if random.percent(60) { Voice::Score } else { Voice::Pcm };
        let voice = voice.unwrap_or(any_voice);
        let any_type = random.percent(50);
        let phrases = phrases.unwrap_or(any_type);
        let stem = if voice == Voice::Score { b"MTR" } else { b"ATR" };
        let id = self.free_id(random, stem);
        self.parts.push(Part::Track(TrackPlan::new(random, id, voice, phrases)));
        self.parts.len() - 1
    }

    fn add_closed_track(&mut self, random: &mut Random) {
        let length = random.below(12);
        let body = random.bytes(length);
        let leaf = match random.below(5) {
            0 | 1 => {
                let format = random.byte_between(1, 2);
                Chunk::leaf(self.free_id(random, b"MTR"), [&[format][..], &body].concat())
            }
            2 | 3 => Chunk::leaf(self.free_id(random, b"GTR"), body),
            _ if self.has_id(*b"MSTR") => Chunk::leaf(self.free_id(random, b"GTR"), body),
            _ => Chunk::leaf(*b"MSTR", body),
        };
        self.parts.push(Part::Leaf(leaf));
    }

    /// Adds a leaf that is no track; some IDs nearly are one.
    fn add_leaf(&mut self, random: &mut Random) {
        let nearly = [*b"OPDA", *b"MSTQ", *b"MMMD", *b"Mtsq", *b"mtr0", *b"MTS0", *b"CNTJ"];
        let any = [b'X', random.byte(), random.byte(), random.byte()];
        let id = if random.percent(80) { random.pick(&nearly) } else { any };
        let length = random.below(12);
        if !self.has_id(id) {
            self.parts.push(Part::Leaf(Chunk::leaf(id, random.bytes(length))));
        }
    }

    fn ids(&self) -> impl Iterator<Item = Id> + '_ {
        self.parts.iter().map(|part| match part {
            Part::Track(track) => track.id,
            Part::Leaf(leaf) => leaf.id,
        })
    }

    fn has_id(&self, id: Id) -> bool {
        self.ids().any(|other| other == id)
    }

    fn free_id(&self, random: &mut Random, stem: &[u8; 3]) -> Id {
        loop {
            let last = if random.percent(50) { random.byte() } else { random.byte_between(0, 4) };
            let id = [stem[0], stem[1], stem[2], last];
            if !self.has_id(id) {
                return id;
            }
        }
    }

    /// A track with that voice and sequence type, made where there is none.
    pub fn track(
        &mut self,
        random: &mut Random,
        voice: Option<Voice>,
        phrases: Option<bool>,
    ) -> &mut TrackPlan {
        let fits = |part: &Part| match part {
            Part::Track(track) => {
                voice.is_none_or(|voice| voice == track.voice)
                    && phrases.is_none_or(|phrases| phrases == track.phrases)
            }
            Part::Leaf(_) => false,
        };
        let fitting: Vec<usize> =
            (0..self.parts.len()).filter(|index| fits(&self.parts[*index])).collect();
        let index = match fitting.is_empty() {
            true => self.add_track(random, voice, phrases),
            false => random.pick(&fitting),
        };
        match &mut self.parts[index] {
            Part::Track(track) => track,
            Part::Leaf(_) => unreachable!("only tracks fit"),
        }
    }

    pub fn draft(&self) -> Draft {
        let mut children = vec![Chunk::leaf(*b"CNTI", self.contents.clone())];
        children.extend(self.parts.iter().map(|part| match part {
            Part::Track(track) => track.chunk(),
            Part::Leaf(leaf) => leaf.clone(),
        }));
        let root = Chunk { children, ..Chunk::leaf(*b"MMMD", Vec::new()) };
        Draft { root, cut: None, right_code: self.right_code }
    }
}

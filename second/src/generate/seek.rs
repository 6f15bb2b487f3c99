//! Plans of seek bodies: points, phrases and the order list.

use crate::generate::sequence::SequencePlan;
use crate::item::END_MARK;
use crate::random::Random;
use crate::seek::LETTERS;

#[derive(Clone, Debug)]
pub struct Entry {
    pub tag: [u8; 2],
    pub colon: Vec<u8>,
    pub data: Vec<u8>,
}

impl Entry {
    pub fn new(tag: [u8; 2], data: Vec<u8>) -> Entry {
        Entry { tag, colon: vec![b':'], data }
    }

    pub fn phrase(letter: u8, start: u32, stop: u32) -> Entry {
        Entry::new([b'P', letter], [start.to_be_bytes(), stop.to_be_bytes()].concat())
    }

    /// The place of the entry's tag in the order of tags.
    pub fn rank(&self) -> usize {
        match &self.tag {
            b"st" => 0,
            b"sp" => 1,
            b"SL" => 3,
            _ => 2,
        }
    }

    fn bytes(&self) -> Vec<u8> {
        [&self.tag[..], &self.colon, &self.data].concat()
    }
}

/// A seek body entry by entry; `tail` stands after all of them.
#[derive(Clone, Debug, Default)]
pub struct SeekPlan {
    pub entries: Vec<Entry>,
    pub final_comma: bool,
    pub tail: Vec<u8>,
}

impl SeekPlan {
    pub fn bytes(&self) -> Vec<u8> {
        let entries: Vec<Vec<u8>> = self.entries.iter().map(Entry::bytes).collect();
        let mut bytes = entries.join(&b","[..]);
        if self.final_comma {
            bytes.push(b',');
        }
        bytes.extend(&self.tail);
        bytes
    }

    pub fn entry(&self, tag: &[u8; 2]) -> Option<&Entry> {
        self.entries.iter().find(|entry| &entry.tag == tag)
    }

    /// Puts the entry in the place of its tag, or where it belongs.
    pub fn put(&mut self, entry: Entry) {
        if let Some(old) = self.entries.iter_mut().find(|old| old.tag == entry.tag) {
            *old = entry;
            return;
        }
        let place = self.entries.iter().take_while(|old| old.rank() <= entry.rank()).count();
        self.entries.insert(place, entry);
    }

    pub fn drop_tag(&mut self, tag: &[u8; 2]) {
        self.entries.retain(|entry| &entry.tag != tag);
    }

    pub fn letters(&self) -> Vec<u8> {
        let phrases = self.entries.iter().filter(|entry| entry.rank() == 2);
        phrases.map(|entry| entry.tag[1]).collect()
    }

    pub fn list(&self) -> Vec<u8> {
        self.entry(b"SL").map_or(Vec::new(), |entry| entry.data.clone())
    }

    /// Points of a stream; none when nothing was put in.
    pub fn stream(random: &mut Random, sequence: &SequencePlan) -> Option<SeekPlan> {
        let places = Places::of(random, sequence);
        let mut plan = SeekPlan { final_comma: random.percent(30), ..SeekPlan::default() };
        let (start, stop) = places.two(random);
        if random.percent(45) {
            plan.put(Entry::new(*b"st", start.to_be_bytes().to_vec()));
        }
        if random.percent(45) {
            plan.put(Entry::new(*b"sp", stop.to_be_bytes().to_vec()));
        }
        if random.percent(15) {
            plan.add_phrases(random, &places);
        }
        if random.percent(15) {
            let length = random.below(6);
            let letters = (0..length).map(|_| random.pick(LETTERS)).collect();
            plan.put(Entry::new(*b"SL", letters));
        }
        (!plan.entries.is_empty()).then_some(plan)
    }

    /// Phrases, a list over them and perhaps positions in it.
    pub fn phrases(random: &mut Random, sequence: &SequencePlan) -> SeekPlan {
        let places = Places::of(random, sequence);
        let mut plan = SeekPlan { final_comma: random.percent(30), ..SeekPlan::default() };
        plan.add_phrases(random, &places);
        let letters = plan.letters();
        let length = match random.below(100) {
            0..=9 => 0,
            10..=89 => random.between(1, 8),
            _ => random.between(8, 40),
        };
        let mut list: Vec<u8> = (0..length).map(|_| random.pick(&letters)).collect();
        if places.parted > 50 && letters.len() < LETTERS.len() && random.percent(60) {
            plan.add_last_call(random, &places, &mut list);
        }
        plan.add_positions(random, list.len());
        plan.put(Entry::new(*b"SL", list));
        plan
    }

    /// Adds a phrase that runs over an end mark, and puts it first, last or
    /// anywhere in the list.
    fn add_last_call(&mut self, random: &mut Random, places: &Places, list: &mut Vec<u8>) {
        let letters = self.letters();
        let without: Vec<u8> =
            LETTERS.iter().copied().filter(|letter| !letters.contains(letter)).collect();
        let letter = random.pick(&without);
        let (start, stop) = places.over_mark(random);
        self.put(Entry::phrase(letter, start, stop));
        let place = random.between(0, list.len());
        list.insert(random.pick(&[0, place, list.len()]), letter);
    }

    fn add_positions(&mut self, random: &mut Random, length: usize) {
        let mut positions = [random.between(0, length), random.between(0, length)];
        positions.sort();
        if random.percent(35) {
            self.put(Entry::new(*b"st", vec![positions[0] as u8]));
        }
        if random.percent(35) {
            self.put(Entry::new(*b"sp", vec![positions[1] as u8]));
        }
    }

    fn add_phrases(&mut self, random: &mut Random, places: &Places) {
        let count = match random.below(100) {
            0..=94 => random.between(1, 4),
            95..=98 => random.between(4, 12),
            _ => LETTERS.len(),
        };
        let mut letters = *LETTERS;
        random.shuffle(&mut letters);
        for letter in &letters[..count] {
            let (start, stop) = places.two(random);
            self.put(Entry::phrase(*letter, start, stop));
        }
    }
}

/// Where the points and phrases of a body may lie. Of a body with several
/// stretches, `parted` of a hundred are one of these.
struct Places {
    addresses: Vec<u32>,
    stretches: Vec<(u32, u32)>,
    parted: usize,
}

impl Places {
    fn of(random: &mut Random, sequence: &SequencePlan) -> Places {
        let (addresses, stretches) = (sequence.addresses(), sequence.stretches());
        let parted = match stretches.len() {
            1 => 0,
            _ => random.pick(&[20, 60, 100]),
        };
        Places { addresses, stretches, parted }
    }

    /// A start and a stop.
    fn two(&self, random: &mut Random) -> (u32, u32) {
        match random.percent(self.parted) {
            true => self.stretch(random),
            false => self.any_two(random),
        }
    }

    /// A stretch that end marks bound, with the mark before it or the one after
    /// it now and then.
    fn stretch(&self, random: &mut Random) -> (u32, u32) {
        let (start, stop) = random.pick(&self.stretches);
        let length = END_MARK.len() as u32;
        let with_mark_before = start > 0 && random.percent(15);
        let with_mark_after = stop < self.end() && random.percent(40);
        (start - length * u32::from(with_mark_before), stop + length * u32::from(with_mark_after))
    }

    /// From one stretch into a later one.
    fn over_mark(&self, random: &mut Random) -> (u32, u32) {
        let later = random.between(1, self.stretches.len() - 1);
        let (start, _) = self.stretches[random.below(later)];
        (start, self.stretches[later].1)
    }

    /// Any addresses in order; the ends of the body come often.
    fn any_two(&self, random: &mut Random) -> (u32, u32) {
        let mut address = |often: u32| match random.below(4) {
            0 => often,
            _ => random.pick(&self.addresses),
        };
        let (one, other) = (address(0), address(self.end()));
        (one.min(other), one.max(other))
    }

    fn end(&self) -> u32 {
        self.addresses[self.addresses.len() - 1]
    }
}

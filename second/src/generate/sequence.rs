//! Plans of sequence bodies: items, with end marks among them or none.

use crate::generate::event::{duration, length_bytes, message, NOP};
use crate::item::{Voice, END_MARK};
use crate::random::Random;

/// A sequence body item by item; an end mark is the item of four zeros.
#[derive(Clone, Debug)]
pub struct SequencePlan {
    pub items: Vec<Vec<u8>>,
}

/// Gaps and rests at which the plain form changes.
const GAPS: [usize; 12] =
    [127, 128, 16_510, 16_511, 16_512, 16_513, 16_639, 33_021, 33_022, 33_023, 33_150, 49_534];

impl SequencePlan {
    /// Half of the bodies have no end mark but a last one.
    pub fn new(random: &mut Random, voice: Voice) -> SequencePlan {
        let count = match random.below(100) {
            0..=9 => 0,
            10..=79 => random.between(1, 8),
            80..=96 => random.between(1, 20),
            _ => random.between(20, 60),
        };
        match random.below(100) {
            0..=49 => SequencePlan::of_count(random, voice, count),
            50..=74 => {
                let marks = random.between(1, 2 + count / 4);
                SequencePlan::marked(random, voice, count, marks)
            }
            _ => SequencePlan::karaoke(random, voice),
        }
    }

    /// That many items or some more, and a last end mark or none.
    pub fn of_count(random: &mut Random, voice: Voice, count: usize) -> SequencePlan {
        let mut items = Vec::new();
        while items.len() < count {
            add_items(random, voice, &mut items);
        }
        if random.percent(20) {
            add_gap(random, &mut items, &NOP);
        }
        if items.is_empty() || random.percent(60) {
            items.push(mark());
        }
        SequencePlan { items }
    }

    /// The same with that many end marks anywhere, two side by side now and
    /// then.
    pub fn marked(random: &mut Random, voice: Voice, count: usize, marks: usize) -> SequencePlan {
        let mut plan = SequencePlan::of_count(random, voice, count);
        for _ in 0..marks {
            let place = random.between(0, plan.items.len());
            let side_by_side = if random.percent(15) { 2 } else { 1 };
            plan.items.splice(place..place, vec![mark(); side_by_side]);
        }
        plan
    }

    /// Phrases, each closed by a rest or not, with an end mark after each.
    fn karaoke(random: &mut Random, voice: Voice) -> SequencePlan {
        let mut items = Vec::new();
        for _ in 0..random.between(1, 5) {
            for _ in 0..random.between(0, 4) {
                add_items(random, voice, &mut items);
            }
            if random.percent(60) {
                items.push(item(random.between(1, 40), &NOP));
            }
            items.push(mark());
        }
        SequencePlan { items }
    }

    pub fn bytes(&self) -> Vec<u8> {
        self.items.concat()
    }

    pub fn length(&self) -> u32 {
        self.bytes().len() as u32
    }

    /// The starts of the items, and the length.
    pub fn addresses(&self) -> Vec<u32> {
        let mut at = 0;
        let mut addresses = vec![0];
        for item in &self.items {
            at += item.len() as u32;
            addresses.push(at);
        }
        addresses
    }

    /// The stretches that the end marks part: where each starts, and where the
    /// mark after it starts, or the length.
    pub fn stretches(&self) -> Vec<(u32, u32)> {
        let addresses = self.addresses();
        let mut stretches = Vec::new();
        let mut start = 0;
        for (index, item) in self.items.iter().enumerate() {
            if *item == END_MARK {
                stretches.push((start, addresses[index]));
                start = addresses[index + 1];
            }
        }
        if stretches.is_empty() || start < self.length() {
            stretches.push((start, self.length()));
        }
        stretches
    }
}

pub fn item(duration: usize, event: &[u8]) -> Vec<u8> {
    [&length_bytes(duration)[..], event].concat()
}

pub fn mark() -> Vec<u8> {
    END_MARK.to_vec()
}

fn add_items(random: &mut Random, voice: Voice, items: &mut Vec<Vec<u8>>) {
    match random.below(100) {
        0..=84 => {
            let duration = duration(random);
            items.push(item(duration, &message(random, voice)));
        }
        85..=94 => items.push(item(duration(random), &NOP)),
        _ => {
            let event = message(random, voice);
            add_gap(random, items, &event);
        }
    }
}

/// Adds NOPs and the event, so that together they last a gap of note.
fn add_gap(random: &mut Random, items: &mut Vec<Vec<u8>>, event: &[u8]) {
    let mut left = random.pick(&GAPS);
    while left > 16_511 || random.percent(30) {
        let part = random.between(0, left.min(16_511));
        items.push(item(part, &NOP));
        left -= part;
    }
    items.push(item(left, event));
}

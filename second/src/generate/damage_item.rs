//! Damage to setup and sequence bodies.

use crate::generate::event::exclusive_of;
use crate::generate::fault::{is_cut, put_fault, voices_of, Cell, Position};
use crate::generate::file::{setup_messages, FilePlan, TrackPlan};
use crate::random::Random;
use crate::refusal::Clause;

pub fn damage_setup(random: &mut Random, track: &mut TrackPlan, clause: Clause) {
    let messages = track.setup.get_or_insert_with(|| setup_messages(random));
    let bad = match clause {
        Clause::SetupEmpty => return messages.clear(),
        Clause::SetupCut => return messages.push(cut_exclusive(random)),
        Clause::SetupSizeUnderThree => small_exclusive(random),
        Clause::SetupWithoutEnd => endless_exclusive(random),
        _ => match random.below(4) {
            0 => vec![0xFF, 0x00],
            1 => [&[0x00][..], &exclusive_of(random, 3)].concat(),
            2 => vec![0xFF, random.byte_between(0xF1, 0xFF), 0x03, 0x43, 0x02, 0xF7],
            _ => vec![random.byte_between(0x00, 0xFE), 0xF0, 0x03, 0x43, 0x02, 0xF7],
        },
    };
    let place = random.between(0, messages.len());
    messages.insert(place, bad);
}

pub fn damage_sequence(random: &mut Random, plan: &mut FilePlan, clause: Clause) {
    let voice = match voices_of(clause) {
        [voice] => Some(*voice),
        _ => None,
    };
    let track = plan.track(random, voice, None);
    let (voice, sequence) = (track.voice, &mut track.sequence);
    match clause {
        Clause::SequenceEmpty => sequence.items.clear(),
        _ => {
            let position = match is_cut(clause) {
                true => Position::Last,
                false => random.pick(&[Position::First, Position::Middle, Position::Last]),
            };
            put_fault(random, sequence, Cell { clause, voice, position });
        }
    }
}

fn small_exclusive(random: &mut Random) -> Vec<u8> {
    let size = random.below(3);
    let mut bytes = vec![0xFF, 0xF0, size as u8];
    bytes.extend([0xF7; 3]);
    bytes
}

fn endless_exclusive(random: &mut Random) -> Vec<u8> {
    let size = random.between(3, 9);
    let mut bytes = exclusive_of(random, size);
    let last = bytes.len() - 1;
    bytes[last] = random.pick(&[0xF6, 0x00, 0xFF, 0x77]);
    bytes
}

/// An exclusive that the end of the body cuts, with an end byte in it or not.
fn cut_exclusive(random: &mut Random) -> Vec<u8> {
    let size = random.between(3, 20);
    let mut bytes = exclusive_of(random, size);
    bytes.truncate(random.between(1, bytes.len() - 1));
    bytes
}

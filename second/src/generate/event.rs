//! Durations and events that the paper allows, as bytes.

use crate::item::Voice;
use crate::random::Random;

pub const NOP: [u8; 2] = [0xFF, 0x00];

/// A duration or gate time of that value, at most 16,511.
pub fn length_bytes(value: usize) -> Vec<u8> {
    match value {
        0..=127 => vec![value as u8],
        _ => vec![0x80 | ((value - 128) >> 7) as u8, ((value - 128) & 0x7F) as u8],
    }
}

pub fn duration(random: &mut Random) -> usize {
    match random.below(100) {
        0..=34 => 0,
        35..=79 => random.between(1, 127),
        80..=87 => random.between(128, 300),
        88..=94 => random.pick(&[127, 128, 255, 256, 16_383, 16_384, 16_510, 16_511]),
        _ => random.between(0, 16_511),
    }
}

pub fn gate(random: &mut Random) -> Vec<u8> {
    length_bytes(duration(random).max(1))
}

/// The first byte of a note or wave message.
pub fn sound_byte(random: &mut Random, voice: Voice) -> u8 {
    let channel = random.byte_between(0, 3) << 6;
    match voice {
        Voice::Score => channel | random.byte_between(0, 3) << 4 | random.byte_between(1, 12),
        Voice::Pcm => channel | random.byte_between(1, 62),
    }
}

pub fn sound(random: &mut Random, voice: Voice) -> Vec<u8> {
    let first = sound_byte(random, voice);
    [&[first][..], &gate(random)].concat()
}

/// The four bits of the long controls that a voice has.
pub fn long_controls(voice: Voice) -> &'static [u8] {
    match voice {
        Voice::Score => &[0x0, 0x1, 0x2, 0x3, 0x4, 0x7, 0xA, 0xB],
        Voice::Pcm => &[0x4, 0x7, 0xA, 0xB],
    }
}

pub fn long_control(random: &mut Random, voice: Voice) -> Vec<u8> {
    let bits = random.pick(long_controls(voice));
    let value = match bits {
        0x1 => random.byte(),
        0x2 => random.pick(&[0x00, 0x01, 0x02, 0x03, 0x04, 0x81, 0x82, 0x83, 0x84]),
        _ if random.percent(30) => random.pick(&[0x00, 0x7F]),
        _ => random.byte_between(0, 0x7F),
    };
    vec![0x00, random.byte_between(0, 3) << 6 | 0x30 | bits, value]
}

/// The second byte of a short control of a form that the voice has.
pub fn short_byte(random: &mut Random, voice: Voice, bits: u8) -> u8 {
    let last_form = match voice {
        Voice::Score => 2,
        Voice::Pcm => 1,
    };
    random.byte_between(0, 3) << 6 | random.byte_between(0, last_form) << 4 | bits
}

pub fn short_control(random: &mut Random, voice: Voice) -> Vec<u8> {
    let bits = random.byte_between(1, 14);
    vec![0x00, short_byte(random, voice, bits)]
}

/// An exclusive; its inside likes the bytes that could mislead a reader.
pub fn exclusive(random: &mut Random) -> Vec<u8> {
    let size = match random.below(100) {
        0..=39 => 3,
        40..=94 => random.between(3, 12),
        95..=96 => 255,
        _ => random.between(3, 255),
    };
    exclusive_of(random, size)
}

pub fn exclusive_of(random: &mut Random, size: usize) -> Vec<u8> {
    let mut bytes = vec![0xFF, 0xF0, size as u8];
    for _ in 1..size {
        let misleading = random.pick(&[0x00, 0xF0, 0xF7, 0xFF]);
        bytes.push(if random.percent(40) { misleading } else { random.byte() });
    }
    bytes.push(0xF7);
    bytes
}

pub fn message(random: &mut Random, voice: Voice) -> Vec<u8> {
    match random.below(100) {
        0..=49 => sound(random, voice),
        50..=74 => long_control(random, voice),
        75..=89 => short_control(random, voice),
        _ => exclusive(random),
    }
}

//! Items with words: good ones, and ones whose first fault is that of a clause.

use crate::generate::event::duration;
use crate::item::Voice;
use crate::random::Random;
use crate::refusal::Clause;
use crate::word::{Word, WordItem};

const LONG_DURATIONS: [u32; 7] = [16_512, 16_513, 16_639, 32_767, 65_536, 0x8000_0000, u32::MAX];
const GATES: [u32; 9] = [0, 1, 127, 128, 16_510, 16_511, 16_512, 16_513, 32_767];
const VALUES: [u8; 14] = [0, 1, 4, 5, 12, 14, 15, 62, 63, 64, 127, 128, 0x84, 255];
const SHIFTS: [u8; 9] = [0x00, 0x01, 0x02, 0x03, 0x04, 0x81, 0x82, 0x83, 0x84];

/// The bits that no control has: its gate and the last two.
const AFTER_VALUE: u32 = 0x0001_FFFF;
/// All bits but those of the kind.
const AFTER_KIND: u32 = 0x07FF_FFFF;

const NOTE: u32 = 1;
const WAVE: u32 = 2;
const BANK: u32 = 4;
const OCTAVE_SHIFT: u32 = 5;

/// An item without a fault; an exclusive's bytes come to the source, or stand in
/// it already.
pub fn good_item(random: &mut Random, voice: Voice, source: &mut Vec<u8>) -> WordItem {
    let word = match random.below(100) {
        0..=34 => sound_word(random, voice),
        35..=54 => long_word(random, voice),
        55..=67 => short_word(random, voice),
        68..=79 => exclusive_word(random, source),
        80..=89 => Word::NOP,
        _ => return WordItem { duration: 0, word: Word::MARK },
    };
    WordItem { duration: duration(random) as u32, word }
}

fn channel(random: &mut Random) -> u8 {
    random.byte_between(0, 3)
}

fn sound_kind(voice: Voice) -> u32 {
    match voice {
        Voice::Score => NOTE,
        Voice::Pcm => WAVE,
    }
}

fn sound_value(random: &mut Random, voice: Voice) -> u8 {
    match voice {
        Voice::Score => random.byte_between(0, 3) << 4 | random.byte_between(1, 12),
        Voice::Pcm => random.byte_between(1, 62),
    }
}

fn sound_word(random: &mut Random, voice: Voice) -> Word {
    let gate = duration(random).max(1) as u32;
    let (channel, value) = (channel(random), sound_value(random, voice));
    Word::packed(sound_kind(voice), channel, value, gate)
}

fn long_kind(random: &mut Random, voice: Voice) -> u32 {
    match voice {
        Voice::Score => random.between(3, 10) as u32,
        Voice::Pcm => random.between(7, 10) as u32,
    }
}

fn long_word(random: &mut Random, voice: Voice) -> Word {
    let kind = long_kind(random, voice);
    let value = match kind {
        BANK => random.byte(),
        OCTAVE_SHIFT => random.pick(&SHIFTS),
        _ if random.percent(30) => random.pick(&[0x00, 0x7F]),
        _ => random.byte_between(0, 0x7F),
    };
    Word::packed(kind, channel(random), value, 0)
}

fn short_kind(random: &mut Random, voice: Voice) -> u32 {
    match voice {
        Voice::Score => random.between(11, 13) as u32,
        Voice::Pcm => random.between(12, 13) as u32,
    }
}

fn short_word(random: &mut Random, voice: Voice) -> Word {
    let value = random.byte_between(1, 14);
    Word::packed(short_kind(random, voice), channel(random), value, 0)
}

/// An exclusive that ends at an F7 of the source, or one that is put there.
fn exclusive_word(random: &mut Random, source: &mut Vec<u8>) -> Word {
    let ends: Vec<usize> = (5..source.len()).filter(|at| source[*at] == 0xF7).collect();
    if !ends.is_empty() && random.percent(40) {
        let end = random.pick(&ends);
        let size = random.between(3, (end - 2).min(9));
        return Word::exclusive(end - 2 - size, size);
    }
    let size = match random.below(100) {
        0..=49 => 3,
        50..=96 => random.between(3, 9),
        _ => random.pick(&[127, 128, 254, 255]),
    };
    put_exclusive(random, source, size, 0xF7)
}

/// Puts an exclusive with that last byte at the source's end. The three bytes in
/// front are those of an exclusive or others.
pub fn put_exclusive(random: &mut Random, source: &mut Vec<u8>, size: usize, last: u8) -> Word {
    let place = source.len();
    match random.percent(50) {
        true => source.extend([0xFF, 0xF0, size as u8]),
        false => source.extend(random.bytes(3)),
    }
    for _ in 1..size {
        let misleading = random.pick(&[0x00, 0xF0, 0xF7, 0xFF]);
        source.push(if random.percent(40) { misleading } else { random.byte() });
    }
    source.push(last);
    Word::exclusive(place, size)
}

/// Sets one or more of those bits.
fn with_bits(random: &mut Random, word: Word, bits: u32) -> Word {
    let some = random.next() as u32 & bits;
    let lowest = 1 << bits.trailing_zeros();
    let highest = 1 << (31 - bits.leading_zeros());
    let set = match random.below(4) {
        0 => lowest,
        1 => highest,
        _ if some == 0 => bits,
        _ => some,
    };
    Word(word.0 | set)
}

/// Sets some of those bits now and then.
fn perhaps_with_bits(random: &mut Random, word: Word, bits: u32) -> Word {
    match random.percent(30) {
        true => with_bits(random, word, bits),
        false => word,
    }
}

/// A word of that kind with fields that are good or not.
fn wild_word(random: &mut Random, kind: u32) -> Word {
    if random.percent(30) {
        return Word(kind << 27 | random.next() as u32 & AFTER_KIND);
    }
    let value = if random.percent(60) { random.pick(&VALUES) } else { random.byte() };
    let gate = if random.percent(60) { random.pick(&GATES) } else { 0 };
    let word = Word::packed(kind, channel(random), value, gate);
    perhaps_with_bits(random, word, 0x3)
}

/// An item with several faults or none.
pub fn wild_item(random: &mut Random) -> WordItem {
    let duration = match random.percent(20) {
        true => random.pick(&LONG_DURATIONS),
        false => duration(random) as u32,
    };
    let kind = if random.percent(70) { random.between(1, 16) } else { random.below(32) };
    WordItem { duration, word: wild_word(random, kind as u32) }
}

/// The clauses that refuse an item for its duration or its word.
pub fn word_clauses() -> Vec<Clause> {
    let of_word = |clause: &Clause| matches!(clause.number(), 21..=23);
    Clause::WRITING.iter().copied().filter(of_word).collect()
}

/// Whether an item of the voice can have the fault.
pub fn fits_voice(clause: Clause, voice: Voice) -> bool {
    match clause {
        Clause::WordKindWaveInScore
        | Clause::WordNoteForbidden
        | Clause::WordNoteOver63
        | Clause::WordShiftReserved => voice == Voice::Score,
        Clause::WordKindNotInPcm | Clause::WordWaveZero | Clause::WordWaveOver62 => {
            voice == Voice::Pcm
        }
        _ => true,
    }
}

/// An item whose first fault is that of the clause; what is looked at later may
/// be at fault too.
pub fn faulty_item(
    random: &mut Random,
    voice: Voice,
    clause: Clause,
    source: &mut Vec<u8>,
) -> WordItem {
    let duration = match clause {
        Clause::WordDurationOver => random.pick(&LONG_DURATIONS),
        Clause::WordMarkDuration => random.pick(&[1, 2, 127, 128, 16_511]),
        Clause::WordStrayMark => 0,
        _ => duration(random) as u32,
    };
    let word = match clause {
        Clause::WordDurationOver if random.percent(50) => good_item(random, voice, source).word,
        Clause::WordDurationOver => wild_item(random).word,
        Clause::WordMarkDuration => perhaps_with_bits(random, Word::MARK, AFTER_KIND),
        _ => match clause.number() {
            22 => faulty_kind(random, clause),
            21 => faulty_sound(random, voice, clause),
            _ => reserved_word(random, voice, clause, source),
        },
    };
    WordItem { duration, word }
}

fn faulty_kind(random: &mut Random, clause: Clause) -> Word {
    let kind = match clause {
        Clause::WordKindZero => 0,
        Clause::WordKindWaveInScore => 2,
        Clause::WordKindNotInPcm => random.pick(&[1, 3, 4, 5, 6, 11]),
        _ if random.percent(30) => 17,
        _ => random.between(17, 31) as u32,
    };
    wild_word(random, kind)
}

fn faulty_sound(random: &mut Random, voice: Voice, clause: Clause) -> Word {
    let high = |octave: u8| octave << 4;
    let value = match clause {
        Clause::WordNoteForbidden => {
            high(random.byte_between(0, 15)) | random.pick(&[0x0, 0xD, 0xE, 0xF])
        }
        Clause::WordNoteOver63 => high(random.byte_between(4, 15)) | random.byte_between(1, 12),
        Clause::WordWaveZero => 0,
        Clause::WordWaveOver62 => random.pick(&[63, 64, 65, 127, 128, 255]),
        _ => sound_value(random, voice),
    };
    let gate = match clause {
        Clause::WordGateZero => 0,
        Clause::WordGateOver => random.pick(&[16_512, 16_513, 32_766, 32_767]),
        _ => random.pick(&GATES),
    };
    let word = Word::packed(sound_kind(voice), channel(random), value, gate);
    perhaps_with_bits(random, word, 0x3)
}

/// Refusal 23: what a word says of its gate, value, exclusive or unused bits.
fn reserved_word(random: &mut Random, voice: Voice, clause: Clause, source: &mut Vec<u8>) -> Word {
    match clause {
        Clause::WordGateOver => faulty_sound(random, voice, clause),
        Clause::WordExclusiveSmall
        | Clause::WordExclusivePastSource
        | Clause::WordExclusiveEndless => {
            let word = faulty_exclusive(random, clause, source);
            perhaps_with_bits(random, word, 0x7)
        }
        Clause::WordValueOver127
        | Clause::WordShiftReserved
        | Clause::WordShortZero
        | Clause::WordShortOver14 => faulty_value(random, voice, clause),
        _ => stray_word(random, voice, clause, source),
    }
}

fn faulty_value(random: &mut Random, voice: Voice, clause: Clause) -> Word {
    let (kind, value) = match clause {
        Clause::WordShiftReserved => (OCTAVE_SHIFT, random.pick(&[0x05, 0x7F, 0x80, 0x85, 0xFF])),
        Clause::WordShortZero => (short_kind(random, voice), 0),
        Clause::WordShortOver14 => {
            (short_kind(random, voice), random.pick(&[15, 16, 17, 30, 127, 128, 129, 255]))
        }
        _ => {
            let kind = match long_kind(random, voice) {
                BANK | OCTAVE_SHIFT => 3,
                kind => kind,
            };
            (kind, random.pick(&[0x80, 0x81, 0x84, 0xFF]))
        }
    };
    let word = Word::packed(kind, channel(random), value, 0);
    perhaps_with_bits(random, word, AFTER_VALUE)
}

fn faulty_exclusive(random: &mut Random, clause: Clause, source: &mut Vec<u8>) -> Word {
    match clause {
        Clause::WordExclusiveSmall => {
            let place = source.len();
            put_exclusive(random, source, 3, 0xF7);
            let anywhere = random.below(65_536);
            let place = if random.percent(70) { place } else { anywhere };
            Word::exclusive(place, random.below(3))
        }
        Clause::WordExclusiveEndless => {
            let size = random.between(3, 9);
            let last = random.pick(&[0xF6, 0x00, 0xFF, 0x77]);
            let word = put_exclusive(random, source, size, last);
            source.push(0xF7);
            word
        }
        _ => exclusive_past_source(random, source),
    }
}

/// One byte past the source mostly, which ends in F7.
fn exclusive_past_source(random: &mut Random, source: &mut Vec<u8>) -> Word {
    let size = random.between(3, 9);
    let word = put_exclusive(random, source, size, 0xF7);
    let place = source.len() - size - 3;
    match random.below(10) {
        0 => Word::exclusive(place, 255),
        1 => Word::exclusive(source.len() - random.below(4), size),
        2 => Word::exclusive(random.pick(&[0xFFFF, 0xFFFD, 0x8000]), size),
        3 | 4 => {
            source.pop();
            word
        }
        5..=7 => Word::exclusive(place, size + 1),
        _ => Word::exclusive(place + 1, size),
    }
}

fn stray_word(random: &mut Random, voice: Voice, clause: Clause, source: &mut Vec<u8>) -> Word {
    let (word, unused) = match clause {
        Clause::WordStraySound => (sound_word(random, voice), 0x3),
        Clause::WordStrayLong => (long_word(random, voice), AFTER_VALUE),
        Clause::WordStrayShort => (short_word(random, voice), AFTER_VALUE),
        Clause::WordStrayExclusive => (exclusive_word(random, source), 0x7),
        Clause::WordStrayNop => (Word::NOP, AFTER_KIND),
        _ => (Word::MARK, AFTER_KIND),
    };
    with_bits(random, word, unused)
}

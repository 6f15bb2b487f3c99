//! Items as the writer takes them, a duration and a word: the faults of an item
//! in their order, and its bytes.

use crate::item::{shift_of, Kind, Voice, END_MARK};
use crate::plain::write_duration;
use crate::refusal::Clause;

/// The longest duration and the longest gate time.
pub const LONGEST: u32 = 16_511;

/// The FF, the F0 and the size in front of what an exclusive's size counts.
const EXCLUSIVE_HEAD: usize = 3;

/// The kinds of message, from 1 on.
const KINDS: [Kind; 14] = [
    Kind::Note,
    Kind::Wave,
    Kind::Program,
    Kind::Bank,
    Kind::OctaveShift,
    Kind::Modulation,
    Kind::PitchBend,
    Kind::Volume,
    Kind::Pan,
    Kind::Expression,
    Kind::ShortModulation,
    Kind::ShortPitchBend,
    Kind::ShortExpression,
    Kind::Exclusive,
];

/// A word, packed from the top bit as in a played row.
#[derive(Clone, Copy, Debug, PartialEq, Eq)]
pub struct Word(pub u32);

#[derive(Clone, Copy, Debug, PartialEq, Eq)]
pub struct WordItem {
    pub duration: u32,
    pub word: Word,
}

/// What a word is by its kind.
#[derive(Clone, Copy, Debug, PartialEq, Eq)]
pub enum Content {
    Message(Kind),
    Nop,
    Mark,
}

impl Word {
    pub const NOP: Word = Word(15 << 27);
    pub const MARK: Word = Word(16 << 27);

    pub fn packed(kind: u32, channel: u8, value: u8, gate: u32) -> Word {
        Word(kind << 27 | u32::from(channel) << 25 | u32::from(value) << 17 | gate << 2)
    }

    pub fn exclusive(place: usize, size: usize) -> Word {
        Word((Kind::Exclusive as u32) << 27 | (place as u32) << 11 | (size as u32) << 3)
    }

    pub fn kind(self) -> u32 {
        self.0 >> 27
    }

    fn channel(self) -> u8 {
        (self.0 >> 25) as u8 & 3
    }

    fn value(self) -> u8 {
        (self.0 >> 17) as u8
    }

    pub fn gate(self) -> u32 {
        self.0 >> 2 & 0x7FFF
    }

    fn place(self) -> usize {
        (self.0 >> 11) as usize & 0xFFFF
    }

    fn size(self) -> usize {
        (self.0 >> 3) as usize & 0xFF
    }

    /// Refusal 22: a kind that there is not, or that the voice lacks.
    fn content(self, voice: Voice) -> Result<Content, Clause> {
        let kind = match self.kind() {
            0 => return Err(Clause::WordKindZero),
            number @ 1..=14 => KINDS[number as usize - 1],
            15 => return Ok(Content::Nop),
            16 => return Ok(Content::Mark),
            _ => return Err(Clause::WordKindOver16),
        };
        match (voice, kind) {
            (Voice::Score, Kind::Wave) => Err(Clause::WordKindWaveInScore),
            (
                Voice::Pcm,
                Kind::Note
                | Kind::Program
                | Kind::Bank
                | Kind::OctaveShift
                | Kind::Modulation
                | Kind::ShortModulation,
            ) => Err(Clause::WordKindNotInPcm),
            _ => Ok(Content::Message(kind)),
        }
    }

    /// What an exclusive's size counts, maker to F7, in the source; none where
    /// it runs past the source. The three bytes before it are not looked at.
    pub fn exclusive_bytes(self, source: &[u8]) -> Option<&[u8]> {
        let start = self.place() + EXCLUSIVE_HEAD;
        source.get(start..start + self.size())
    }

    fn check_message(self, kind: Kind, source: &[u8]) -> Result<(), Clause> {
        match kind {
            Kind::Note | Kind::Wave => self.check_sound(kind),
            Kind::ShortModulation | Kind::ShortPitchBend | Kind::ShortExpression => {
                match self.value() {
                    0 => Err(Clause::WordShortZero),
                    1..=14 => Ok(()),
                    _ => Err(Clause::WordShortOver14),
                }
            }
            Kind::Exclusive => self.check_exclusive(source),
            Kind::Bank => Ok(()),
            Kind::OctaveShift => match shift_of(self.value()) {
                Some(_) => Ok(()),
                None => Err(Clause::WordShiftReserved),
            },
            _ if self.value() > 0x7F => Err(Clause::WordValueOver127),
            _ => Ok(()),
        }
    }

    fn check_sound(self, kind: Kind) -> Result<(), Clause> {
        match (kind, self.value()) {
            (Kind::Wave, 0) => return Err(Clause::WordWaveZero),
            (Kind::Wave, 63..) => return Err(Clause::WordWaveOver62),
            (Kind::Wave, _) => {}
            (_, value) if !(1..=12).contains(&(value & 0x0F)) => {
                return Err(Clause::WordNoteForbidden)
            }
            (_, 64..) => return Err(Clause::WordNoteOver63),
            _ => {}
        }
        match self.gate() {
            0 => Err(Clause::WordGateZero),
            1..=LONGEST => Ok(()),
            _ => Err(Clause::WordGateOver),
        }
    }

    fn check_exclusive(self, source: &[u8]) -> Result<(), Clause> {
        if self.size() < 3 {
            return Err(Clause::WordExclusiveSmall);
        }
        let bytes = self.exclusive_bytes(source).ok_or(Clause::WordExclusivePastSource)?;
        match bytes.last() {
            Some(0xF7) => Ok(()),
            _ => Err(Clause::WordExclusiveEndless),
        }
    }

    /// Bits that are set where the content has none.
    fn check_stray(self, content: Content) -> Result<(), Clause> {
        let (unused, clause) = match content {
            Content::Nop => (0x07FF_FFFF, Clause::WordStrayNop),
            Content::Mark => (0x07FF_FFFF, Clause::WordStrayMark),
            Content::Message(Kind::Note | Kind::Wave) => (0x3, Clause::WordStraySound),
            Content::Message(Kind::Exclusive) => (0x7, Clause::WordStrayExclusive),
            Content::Message(
                Kind::ShortModulation | Kind::ShortPitchBend | Kind::ShortExpression,
            ) => (0x0001_FFFF, Clause::WordStrayShort),
            Content::Message(_) => (0x0001_FFFF, Clause::WordStrayLong),
        };
        match self.0 & unused {
            0 => Ok(()),
            _ => Err(clause),
        }
    }

    /// The bytes of a message that has no fault.
    fn write_message(self, kind: Kind, source: &[u8], body: &mut Vec<u8>) {
        let (channel, value) = (self.channel() << 6, self.value());
        match kind {
            Kind::Note | Kind::Wave => {
                body.push(channel | value);
                write_duration(u64::from(self.gate()), body);
            }
            Kind::Program => body.extend([0x00, channel | 0x30, value]),
            Kind::Bank => body.extend([0x00, channel | 0x31, value]),
            Kind::OctaveShift => body.extend([0x00, channel | 0x32, value]),
            Kind::Modulation => body.extend([0x00, channel | 0x33, value]),
            Kind::PitchBend => body.extend([0x00, channel | 0x34, value]),
            Kind::Volume => body.extend([0x00, channel | 0x37, value]),
            Kind::Pan => body.extend([0x00, channel | 0x3A, value]),
            Kind::Expression => body.extend([0x00, channel | 0x3B, value]),
            Kind::ShortModulation => body.extend([0x00, channel | 0x20 | value]),
            Kind::ShortPitchBend => body.extend([0x00, channel | 0x10 | value]),
            Kind::ShortExpression => body.extend([0x00, channel | value]),
            Kind::Exclusive => {
                body.extend([0xFF, 0xF0, self.size() as u8]);
                body.extend(self.exclusive_bytes(source).unwrap_or(&[]));
            }
        }
    }
}

impl WordItem {
    fn check_duration(self) -> Result<(), Clause> {
        if self.duration > LONGEST {
            return Err(Clause::WordDurationOver);
        }
        match self.duration > 0 && self.word.kind() == Word::MARK.kind() {
            true => Err(Clause::WordMarkDuration),
            false => Ok(()),
        }
    }

    /// The first fault of the item counts: its duration, the kind, the content's
    /// own fields, stray bits.
    pub fn check(self, voice: Voice, source: &[u8]) -> Result<Content, Clause> {
        self.check_duration()?;
        let content = self.word.content(voice)?;
        if let Content::Message(kind) = content {
            self.word.check_message(kind, source)?;
        }
        self.word.check_stray(content)?;
        Ok(content)
    }

    /// Adds the item to a body of that voice.
    pub fn write(self, voice: Voice, source: &[u8], body: &mut Vec<u8>) -> Result<(), Clause> {
        let content = self.check(voice, source)?;
        if content != Content::Mark {
            write_duration(u64::from(self.duration), body);
        }
        match content {
            Content::Message(kind) => self.word.write_message(kind, source, body),
            Content::Nop => body.extend([0xFF, 0x00]),
            Content::Mark => body.extend(END_MARK),
        }
        Ok(())
    }
}

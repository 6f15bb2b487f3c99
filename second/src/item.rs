//! Items of a sequence body: durations, gate times and events, in both voices,
//! and the end marks among them.

use crate::numbers::four_bytes;
use crate::refusal::{Clause, Refusal};

#[derive(Clone, Copy, Debug, PartialEq, Eq)]
pub enum Voice {
    Score,
    Pcm,
}

/// The kinds of message, numbered as in a played row.
#[derive(Clone, Copy, Debug, PartialEq, Eq)]
pub enum Kind {
    Note = 1,
    Wave,
    Program,
    Bank,
    OctaveShift,
    Modulation,
    PitchBend,
    Volume,
    Pan,
    Expression,
    ShortModulation,
    ShortPitchBend,
    ShortExpression,
    Exclusive,
}

/// Where an item starts, four zeros are an end mark.
pub const END_MARK: [u8; 4] = [0; 4];

/// A message; `value` of an exclusive is its size byte. `start` and `end`
/// bound its event in the body.
#[derive(Clone, Copy, Debug, PartialEq, Eq)]
pub struct Message {
    pub kind: Kind,
    pub channel: u8,
    pub value: u8,
    pub gate: u16,
    pub start: usize,
    pub end: usize,
}

#[derive(Clone, Copy, Debug, PartialEq, Eq)]
pub struct Item {
    pub start: usize,
    pub onset: u64,
}

/// A whole sequence body. `items` has the end marks too, `marks` has nothing
/// else, and `messages` leaves them and the NOPs out. `addresses` are the starts
/// of the items, and the body's length.
#[derive(Clone, Debug, Default, PartialEq, Eq)]
pub struct Sequence {
    pub items: Vec<Item>,
    pub marks: Vec<Item>,
    pub messages: Vec<(u64, Message)>,
    pub addresses: Vec<usize>,
    pub time: u64,
}

/// The byte at `at`; where the body ends before it, the item is cut short.
fn byte_at(body: &[u8], at: usize, cut: Clause) -> Result<u8, Refusal> {
    body.get(at).copied().ok_or(Refusal::at(cut, body.len()))
}

/// How the faults of a duration or of a gate time are called.
struct LengthFaults {
    cut: Clause,
    second_cut: Clause,
    second_byte: Clause,
}

const DURATION: LengthFaults = LengthFaults {
    cut: Clause::DurationCut,
    second_cut: Clause::DurationCut,
    second_byte: Clause::DurationSecondByte,
};

const GATE: LengthFaults = LengthFaults {
    cut: Clause::GateCut,
    second_cut: Clause::GateSecondCut,
    second_byte: Clause::GateSecondByte,
};

/// A duration, or a gate time before its check for 0: value and end.
fn length_at(body: &[u8], at: usize, faults: &LengthFaults) -> Result<(u16, usize), Refusal> {
    let first = byte_at(body, at, faults.cut)?;
    if first < 128 {
        return Ok((u16::from(first), at + 1));
    }
    let second = byte_at(body, at + 1, faults.second_cut)?;
    if second >= 128 {
        return Err(Refusal::at(faults.second_byte, at + 1));
    }
    let value = 128 * (u16::from(first) - 128) + u16::from(second) + 128;
    Ok((value, at + 2))
}

fn gate_at(body: &[u8], at: usize) -> Result<(u16, usize), Refusal> {
    match length_at(body, at, &GATE)? {
        (0, _) => Err(Refusal::at(Clause::GateZero, at)),
        gate => Ok(gate),
    }
}

/// What FF begins: an exclusive, or none for a NOP; and its end.
fn full_at(body: &[u8], at: usize) -> Result<(Option<Message>, usize), Refusal> {
    match byte_at(body, at + 1, Clause::FullEventCut)? {
        0x00 => Ok((None, at + 2)),
        0xF0 => exclusive_at(body, at).map(|message| (Some(message), message.end)),
        _ => Err(Refusal::at(Clause::OtherFullEvent, at + 1)),
    }
}

/// The exclusive whose FF F0 stands at `at`.
pub fn exclusive_at(body: &[u8], at: usize) -> Result<Message, Refusal> {
    let size = byte_at(body, at + 2, Clause::ExclusiveSizeCut)?;
    if size < 3 {
        return Err(Refusal::at(Clause::ExclusiveSizeUnderThree, at + 2));
    }
    let last = at + 2 + usize::from(size);
    match byte_at(body, last, Clause::ExclusiveCut)? {
        0xF7 => {
            let kind = Kind::Exclusive;
            Ok(Message { kind, channel: 0, value: size, gate: 0, start: at, end: last + 1 })
        }
        _ => Err(Refusal::at(Clause::ExclusiveWithoutEnd, last)),
    }
}

/// An event at `at`: its message (none for a NOP) and its end.
fn event_at(body: &[u8], at: usize, voice: Voice) -> Result<(Option<Message>, usize), Refusal> {
    let message = match byte_at(body, at, Clause::EventCut)? {
        0xFF => return full_at(body, at),
        0x00 => control_at(body, at, voice)?,
        first => sound_at(body, at, first, voice)?,
    };
    Ok((Some(message), message.end))
}

/// A note or a wave message whose first byte is `first`.
fn sound_at(body: &[u8], at: usize, first: u8, voice: Voice) -> Result<Message, Refusal> {
    let value = first & 0x3F;
    let forbidden = |clause| Err(Refusal::at(clause, at));
    let kind = match voice {
        Voice::Score => match value & 0x0F {
            0x1..=0xC => Kind::Note,
            _ => return forbidden(Clause::NoteForbidden),
        },
        Voice::Pcm => match value {
            0 => return forbidden(Clause::WaveNumberZero),
            63 => return forbidden(Clause::WaveNumberSixtyThree),
            _ => Kind::Wave,
        },
    };
    let (gate, end) = gate_at(body, at + 1)?;
    Ok(Message { kind, channel: first >> 6, value, gate, start: at, end })
}

/// A control: 00, then channel, form and four bits.
fn control_at(body: &[u8], at: usize, voice: Voice) -> Result<Message, Refusal> {
    let second = byte_at(body, at + 1, Clause::ControlCut)?;
    let bits = second & 0x0F;
    let (kind, value, end) = match (second >> 4) & 3 {
        3 => {
            let kind = long_kind(bits, voice).map_err(|clause| Refusal::at(clause, at + 1))?;
            let value = byte_at(body, at + 2, Clause::ControlValueCut)?;
            check_value(kind, value).map_err(|clause| Refusal::at(clause, at + 2))?;
            (kind, value, at + 3)
        }
        form => {
            let kind = short_kind(form, bits, voice);
            (kind.map_err(|clause| Refusal::at(clause, at + 1))?, bits, at + 2)
        }
    };
    Ok(Message { kind, channel: second >> 6, value, gate: 0, start: at, end })
}

/// The kind of a control of form 3, where the voice has it.
fn long_kind(bits: u8, voice: Voice) -> Result<Kind, Clause> {
    let kind = match bits {
        0x0 => Kind::Program,
        0x1 => Kind::Bank,
        0x2 => Kind::OctaveShift,
        0x3 => Kind::Modulation,
        0x4 => Kind::PitchBend,
        0x7 => Kind::Volume,
        0xA => Kind::Pan,
        0xB => Kind::Expression,
        _ => return Err(Clause::ControlReserved),
    };
    match (voice, bits) {
        (Voice::Pcm, 0x0..=0x3) => Err(Clause::PcmForbidsControl),
        _ => Ok(kind),
    }
}

/// The kind of a control of form 0, 1 or 2 with that value.
fn short_kind(form: u8, value: u8, voice: Voice) -> Result<Kind, Clause> {
    match (voice, form, value) {
        (Voice::Pcm, 2, _) => Err(Clause::PcmForbidsShort),
        (_, _, 0) => Err(Clause::ShortValueZero),
        (_, _, 15) => Err(Clause::ShortValueFifteen),
        (_, 0, _) => Ok(Kind::ShortExpression),
        (_, 1, _) => Ok(Kind::ShortPitchBend),
        _ => Ok(Kind::ShortModulation),
    }
}

fn check_value(kind: Kind, value: u8) -> Result<(), Clause> {
    match kind {
        Kind::Bank => Ok(()),
        Kind::OctaveShift if shift_of(value).is_none() => Err(Clause::ShiftReserved),
        Kind::OctaveShift => Ok(()),
        _ if value > 0x7F => Err(Clause::ValueOver127),
        _ => Ok(()),
    }
}

/// The octaves a shift byte stands for.
pub fn shift_of(value: u8) -> Option<i32> {
    match value {
        0x00..=0x04 => Some(i32::from(value)),
        0x81..=0x84 => Some(0x80 - i32::from(value)),
        _ => None,
    }
}

/// Reads a sequence body; places are counted from its start.
pub fn read_sequence(body: &[u8], voice: Voice) -> Result<Sequence, Refusal> {
    if body.is_empty() {
        return Err(Refusal::at(Clause::SequenceEmpty, 0));
    }
    let mut sequence = Sequence::default();
    let mut at = 0;
    while at < body.len() {
        at = match four_bytes(body, at) {
            Some(END_MARK) => sequence.add_mark(at),
            _ => sequence.add_item(body, at, voice)?,
        };
    }
    sequence.addresses.push(body.len());
    Ok(sequence)
}

impl Sequence {
    /// Adds what stands at `start`, at the time that was reached by now.
    fn add(&mut self, start: usize) -> Item {
        let item = Item { start, onset: self.time };
        self.addresses.push(start);
        self.items.push(item);
        item
    }

    /// Adds the end mark at `at`, which has no duration, and gives its end.
    fn add_mark(&mut self, at: usize) -> usize {
        let mark = self.add(at);
        self.marks.push(mark);
        at + END_MARK.len()
    }

    /// Adds the duration and the event at `at`, and gives their end.
    fn add_item(&mut self, body: &[u8], at: usize, voice: Voice) -> Result<usize, Refusal> {
        let (duration, event) = length_at(body, at, &DURATION)?;
        let (message, end) = event_at(body, event, voice)?;
        self.time += u64::from(duration);
        self.add(at);
        self.messages.extend(message.map(|message| (self.time, message)));
        Ok(end)
    }

    pub fn is_address(&self, address: u32) -> bool {
        self.addresses.binary_search(&(address as usize)).is_ok()
    }

    /// The sum of the durations of all items that start before `address`.
    pub fn time_of(&self, address: u32) -> u64 {
        let before = self.items.partition_point(|item| item.start < address as usize);
        match before {
            0 => 0,
            _ => self.items[before - 1].onset,
        }
    }
}

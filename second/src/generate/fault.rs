//! Faulty items: for each row of the table of faults an item that shows it, in
//! either voice, as the first, a middle or the last item of a body, behind end
//! marks too.

use crate::case::{Case, Operation};
use crate::generate::call::call;
use crate::generate::event::{
    duration, exclusive_of, gate, length_bytes, long_controls, short_byte, sound_byte,
};
use crate::generate::file::FilePlan;
use crate::generate::sequence::{mark, SequencePlan};
use crate::item::Voice;
use crate::random::Random;
use crate::refusal::Clause;

#[derive(Clone, Copy, Debug, PartialEq, Eq)]
pub enum Position {
    First,
    Middle,
    Last,
}

/// One row of the table in one voice, told of an item at one position.
#[derive(Clone, Copy, Debug, PartialEq, Eq)]
pub struct Cell {
    pub clause: Clause,
    pub voice: Voice,
    pub position: Position,
}

/// Whether the clause tells an item that the end of its body cuts.
pub fn is_cut(clause: Clause) -> bool {
    clause.number() == 20
}

/// The clauses of faulty items.
pub fn item_clauses() -> Vec<Clause> {
    Clause::READING.iter().copied().filter(|clause| matches!(clause.number(), 20..=23)).collect()
}

/// The voices in which an item can have the fault.
pub fn voices_of(clause: Clause) -> &'static [Voice] {
    match clause {
        Clause::NoteForbidden | Clause::ShiftReserved => &[Voice::Score],
        Clause::WaveNumberZero
        | Clause::WaveNumberSixtyThree
        | Clause::PcmForbidsControl
        | Clause::PcmForbidsShort => &[Voice::Pcm],
        _ => &[Voice::Score, Voice::Pcm],
    }
}

/// Every cell that there can be: an item that is cut is the last.
pub fn cells() -> Vec<Cell> {
    let mut cells = Vec::new();
    for clause in item_clauses() {
        let positions = match is_cut(clause) {
            true => &[Position::Last][..],
            false => &[Position::First, Position::Middle, Position::Last],
        };
        for &voice in voices_of(clause) {
            cells.extend(positions.iter().map(|&position| Cell { clause, voice, position }));
        }
    }
    cells
}

/// A faulty item: what can stand, the byte that cannot (none where the item is
/// cut), and what follows in the item.
struct Faulty {
    front: Vec<u8>,
    bad: Option<u8>,
    rest: Vec<u8>,
}

/// Puts an item with the fault into the body and says where the fault is told,
/// counted from the body's head.
pub fn put_fault(random: &mut Random, sequence: &mut SequencePlan, cell: Cell) -> usize {
    let others = match cell.position {
        Position::First => 0,
        Position::Middle => 2,
        Position::Last => usize::from(!is_cut(cell.clause)),
    };
    while sequence.items.len() < others {
        let more = SequencePlan::of_count(random, cell.voice, 1);
        sequence.items.extend(more.items);
    }
    let place = match cell.position {
        Position::First => 0,
        Position::Middle => random.between(1, sequence.items.len() - 1),
        Position::Last => sequence.items.len(),
    };
    let before: usize = sequence.items[..place].iter().map(Vec::len).sum();
    let Faulty { mut front, bad, rest } = faulty(random, cell);
    let told = before + front.len();
    front.extend(bad);
    let last = cell.position == Position::Last;
    let ends_here = last && (bad.is_none() || random.percent(30));
    if !ends_here {
        front.extend(rest);
    }
    sequence.items.insert(place, front);
    if last && !ends_here && random.percent(50) {
        sequence.items.push(mark());
    }
    told
}

/// Adds a second faulty item behind all others: the first still counts.
fn add_later_fault(random: &mut Random, sequence: &mut SequencePlan, voice: Voice) {
    let fits = |cell: &Cell| cell.voice == voice && cell.position == Position::Last;
    let cells: Vec<Cell> = cells().into_iter().filter(fits).collect();
    let cell = random.pick(&cells);
    put_fault(random, sequence, cell);
}

/// The case with that number in a row that goes through all cells in turn, once
/// for each operation and so on, and its cell.
pub fn fault_case(operations: &[Operation], seed: u64, number: u64) -> (Case, Cell) {
    let cells = cells();
    let count = cells.len() as u64;
    let cell = cells[(number % count) as usize];
    let mut random = Random::for_index(seed, number);
    let mut plan = FilePlan::new(&mut random);
    let track = plan.track(&mut random, Some(cell.voice), None);
    put_fault(&mut random, &mut track.sequence, cell);
    if cell.position != Position::Last && random.percent(40) {
        add_later_fault(&mut random, &mut track.sequence, cell.voice);
    }
    let file = plan.draft().bytes(&mut random);
    let operation = operations[(number / count) as usize % operations.len()];
    let stated = file.len() as u32;
    (Case { stated, ..call(&mut random, operation, file) }, cell)
}

fn faulty(random: &mut Random, cell: Cell) -> Faulty {
    if cell.clause == Clause::DurationSecondByte {
        let rest = vec![random.pick(&[0x0D, 0x29, 0x00, 0xFF]), random.byte()];
        return Faulty { front: vec![0x80 | random.byte()], bad: Some(0x80 | random.byte()), rest };
    }
    if cell.clause == Clause::DurationCut {
        return Faulty { front: vec![0x80 | random.byte()], bad: None, rest: Vec::new() };
    }
    let before = length_bytes(duration(random));
    let (front, bad, rest) = match is_cut(cell.clause) {
        true => (cut_event(random, cell), None, Vec::new()),
        false => {
            let (front, bad) = bad_event(random, cell);
            (front, Some(bad), rest_after(random))
        }
    };
    Faulty { front: [before, front].concat(), bad, rest }
}

/// What follows the bad byte is not looked at: bytes that would do, and bytes
/// with faults of their own. The first is not 0, so that no four zeros come
/// together.
fn rest_after(random: &mut Random) -> Vec<u8> {
    let count = random.below(4);
    let mut rest = vec![random.byte_between(0x01, 0xFF)];
    for _ in 0..count {
        let misleading = random.pick(&[0x00, 0x01, 0x80, 0xF0, 0xF7, 0xFF]);
        rest.push(if random.percent(60) { misleading } else { random.byte() });
    }
    rest
}

/// The bytes of an event that are there where the rest is cut off.
fn cut_event(random: &mut Random, cell: Cell) -> Vec<u8> {
    match cell.clause {
        Clause::EventCut => Vec::new(),
        Clause::GateCut => vec![sound_byte(random, cell.voice)],
        Clause::GateSecondCut => vec![sound_byte(random, cell.voice), 0x80 | random.byte()],
        Clause::ControlCut => vec![0x00],
        Clause::ControlValueCut => vec![0x00, long_byte(random, long_controls(cell.voice))],
        Clause::FullEventCut => vec![0xFF],
        Clause::ExclusiveSizeCut => vec![0xFF, 0xF0],
        _ => {
            let size = random.between(3, 20);
            let mut bytes = exclusive_of(random, size);
            bytes.truncate(random.between(3, size + 2));
            bytes
        }
    }
}

/// The second byte of a control of form 3.
fn long_byte(random: &mut Random, controls: &[u8]) -> u8 {
    random.byte_between(0, 3) << 6 | 0x30 | random.pick(controls)
}

/// The bytes of an event up to the one that cannot stand, and that one.
fn bad_event(random: &mut Random, cell: Cell) -> (Vec<u8>, u8) {
    let channel = random.byte_between(0, 3) << 6;
    match cell.clause {
        Clause::NoteForbidden => (Vec::new(), forbidden_note(random)),
        Clause::WaveNumberZero => (Vec::new(), random.pick(&[0x40, 0x80, 0xC0])),
        Clause::WaveNumberSixtyThree => (Vec::new(), random.pick(&[0x3F, 0x7F, 0xBF])),
        Clause::GateZero => (vec![sound_byte(random, cell.voice)], 0x00),
        Clause::GateSecondByte => {
            let first = gate(random)[0] | 0x80;
            (vec![sound_byte(random, cell.voice), first], 0x80 | random.byte())
        }
        Clause::ShortValueZero => (vec![0x00], short_byte(random, cell.voice, 0)),
        Clause::ShortValueFifteen => (vec![0x00], short_byte(random, cell.voice, 15)),
        Clause::ControlReserved => {
            (vec![0x00], long_byte(random, &[0x5, 0x6, 0x8, 0x9, 0xC, 0xD, 0xE, 0xF]))
        }
        Clause::ValueOver127 => large_value(random, cell.voice),
        Clause::ShiftReserved => {
            (vec![0x00, channel | 0x32], random.pick(&[0x05, 0x7F, 0x80, 0x85, 0xFF]))
        }
        Clause::PcmForbidsControl => (vec![0x00], long_byte(random, &[0x0, 0x1, 0x2, 0x3])),
        Clause::PcmForbidsShort => (vec![0x00], channel | random.byte_between(0x20, 0x2F)),
        Clause::ExclusiveSizeUnderThree => (vec![0xFF, 0xF0], random.byte_between(0, 2)),
        Clause::ExclusiveWithoutEnd => endless_exclusive(random),
        _ => (vec![0xFF], random.pick(&[0x01, 0x0F, 0x7F, 0xEF, 0xF1, 0xF7, 0xFF])),
    }
}

fn large_value(random: &mut Random, voice: Voice) -> (Vec<u8>, u8) {
    let mut controls = long_controls(voice).to_vec();
    controls.retain(|bits| ![0x1, 0x2].contains(bits));
    let any = 0x80 | random.byte();
    (vec![0x00, long_byte(random, &controls)], random.pick(&[0x80, 0x81, 0xFF, any]))
}

fn forbidden_note(random: &mut Random) -> u8 {
    let nibble = random.pick(&[0x0, 0xD, 0xE, 0xF]);
    let upper = match nibble {
        0x0 => random.byte_between(0x1, 0xF),
        _ => random.byte_between(0x0, 0xE),
    };
    upper << 4 | nibble
}

fn endless_exclusive(random: &mut Random) -> (Vec<u8>, u8) {
    let size = random.between(3, 9);
    let mut bytes = exclusive_of(random, size);
    bytes.pop();
    (bytes, random.pick(&[0xF6, 0x00, 0xFF, 0x77]))
}

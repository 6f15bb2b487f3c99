//! The generator of cases: good files and descriptions of every shape, damaged
//! and mutated ones, and calls on them. The same seed gives the same cases.

mod call;
pub mod damage;
pub mod damage_describe;
mod damage_item;
mod damage_seek;
mod damage_seek_entry;
mod damage_tree;
pub mod describe;
mod event;
pub mod fault;
pub mod file;
mod large;
mod large_describe;
mod mutate;
mod seek;
pub mod sequence;
pub mod tree;
pub mod word;
pub mod write_call;

use crate::case::{Case, Operation};
use crate::generate::damage::{damaged, file_clauses};
use crate::generate::file::FilePlan;
use crate::generate::large::Stop;
use crate::random::Random;
use crate::refusal::Clause;

/// How many cases of an operation come before the large ones come again.
const PERIOD: u64 = 4_000;

/// The case with that number in the row of cases that a seed gives.
pub fn case(operations: &[Operation], seed: u64, number: u64) -> Case {
    let count = operations.len() as u64;
    let operation = operations[(number % count) as usize];
    let mut random = Random::for_index(seed ^ u64::from(operation.letter()) << 32, number);
    let slot = number / count % PERIOD;
    match operation {
        Operation::Pitch => any_pitch(&mut random),
        Operation::Write => write_call::write_case(&mut random, slot),
        Operation::WriteBody => write_call::body_case(&mut random, slot),
        _ => {
            let file = any_file(&mut random, operation, slot);
            call::call(&mut random, operation, file)
        }
    }
}

fn any_pitch(random: &mut Random) -> Case {
    let shifts = [0x00, 0x01, 0x04, 0x05, 0x7F, 0x80, 0x81, 0x84, 0x85];
    let shift = if random.percent(60) { random.pick(&shifts) } else { random.byte() };
    pitch_case(random.byte(), shift)
}

pub fn pitch_case(event: u8, shift: u8) -> Case {
    Case {
        operation: Operation::Pitch,
        stated: u32::from(event),
        row: u32::from(shift),
        room: 0,
        buffer: Vec::new(),
    }
}

/// The read of an accepted file with that many rows, for which there is just room.
pub fn read_of_many_chunks(rows: usize) -> Case {
    let mut random = Random::for_index(0, rows as u64);
    let buffer = large::many_chunks(&mut random, rows).bytes(&mut random);
    let stated = buffer.len() as u32;
    Case { operation: Operation::Read, stated, row: 0, room: rows as u32, buffer }
}

/// Every event byte with every shift byte.
pub fn all_pitches() -> impl Iterator<Item = Case> {
    (0..=255).flat_map(|event| (0..=255).map(move |shift| pitch_case(event, shift)))
}

/// The file of a case; large ones have their slots in the period.
pub fn any_file(random: &mut Random, operation: Operation, slot: u64) -> Vec<u8> {
    let (below, above) = (random.between(0, 2), random.between(1, 2));
    let draft = match slot {
        7 => large::many_chunks(random, 4_096 + above),
        1_757 => large::many_chunks(random, 4_096 - below),
        2_757 => large::many_chunks_and_twin(random, 8_000),
        1_007 => large::long_list(random, Stop::Nowhere),
        757 => large::long_list(random, Stop::First),
        2_507 => large::long_list(random, Stop::Middle),
        3_757 => large::long_list(random, Stop::Last),
        2_007 => large::full_file(random, 65_536),
        1_257 | 3_007 => large::full_file(random, 65_536 + 1_000 * below + above),
        1_250 | 3_250 => large::rests_of(random),
        1_507 if operation == Operation::Play => large::rows_of(random, 69_998 + below + above),
        507 => large::rows_of(random, 4_096 + above),
        3_507 => large::rows_of(random, 4_096 - below),
        250 => large::plain_of(random, 65_536 + above),
        2_250 => large::plain_of(random, 65_536 - below),
        _ => return small_file(random),
    };
    draft.bytes(random)
}

fn small_file(random: &mut Random) -> Vec<u8> {
    let clauses = file_clauses();
    let kind = random.below(100);
    let plan = FilePlan::new(random);
    match kind {
        0..=41 => plan.draft().bytes(random),
        42..=73 => {
            let clause = random.pick(&clauses);
            damaged(random, plan, &[clause]).bytes(random)
        }
        74..=81 => {
            let several = several_clauses(random, &clauses);
            damaged(random, plan, &several).bytes(random)
        }
        82..=84 => {
            let mut plan = plan;
            mutate::change_plan(random, &mut plan);
            plan.draft().bytes(random)
        }
        85..=88 => {
            let mut draft = plan.draft();
            mutate::change_tree(random, &mut draft);
            draft.bytes(random)
        }
        89..=91 => {
            let mut draft = plan.draft();
            mutate::change_size(random, &mut draft);
            draft.bytes(random)
        }
        _ => bytes_changed(random, plan, kind),
    }
}

/// A few clauses; often ones that stand close together in the table, so that
/// the order of the checks shows.
fn several_clauses(random: &mut Random, clauses: &[Clause]) -> Vec<Clause> {
    let count = random.between(2, 4);
    let close = random.percent(60);
    let start = random.below(clauses.len());
    let index = |random: &mut Random| match close {
        true => (start + random.below(24)) % clauses.len(),
        false => random.below(clauses.len()),
    };
    (0..count).map(|_| clauses[index(random)]).collect()
}

fn bytes_changed(random: &mut Random, plan: FilePlan, kind: usize) -> Vec<u8> {
    let mut bytes = plan.draft().bytes(random);
    match kind {
        92..=95 => mutate::change_file(random, &mut bytes),
        96..=98 => mutate::truncate(random, &mut bytes),
        _ => {
            let length = random.below(60);
            bytes = random.bytes(length);
            if random.percent(50) {
                bytes.splice(..0, *b"MMMD");
            }
        }
    }
    bytes
}

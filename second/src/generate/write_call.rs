//! Cases of the writer: descriptions of files and of bodies, and room for what
//! they make.

use crate::case::{Case, Operation, LARGEST_DESCRIPTION, LARGEST_ROOM};
use crate::description::{BodyDescription, Description};
use crate::generate::call::room_near;
use crate::generate::damage_describe::{change_one, damage, description_clauses};
use crate::generate::describe::{good_description, good_table, read_description};
use crate::generate::large_describe::{large_body, large_description, put_faulty_item};
use crate::generate::several_clauses;
use crate::generate::word::wild_item;
use crate::item::Voice;
use crate::random::Random;
use crate::refusal::{Clause, Refusal};
use crate::write::{write_body, write_file};

/// One of a hundred cases is large: which of the large ones it is.
fn large_turn(slot: u64) -> Option<u64> {
    (slot % 100 == 37).then_some(slot / 100)
}

pub fn write_case(random: &mut Random, slot: u64) -> Case {
    let description = any_description(random, slot);
    let room = room_for(random, write_file(&description, usize::MAX));
    case_of(random, Operation::Write, room, description.bytes())
}

pub fn body_case(random: &mut Random, slot: u64) -> Case {
    let description = any_body(random, slot);
    let room = room_for(random, write_body(&description, usize::MAX));
    case_of(random, Operation::WriteBody, room, description.bytes())
}

/// Room near what the written bytes take, or near the most that may be written.
fn room_for(random: &mut Random, written: Result<Vec<u8>, Refusal>) -> u32 {
    match written.map_err(|refusal| refusal.clause) {
        Ok(bytes) => room_near(random, Some(bytes.len() as u64)),
        Err(Clause::FileOverLargest | Clause::BodyOverLargest) => {
            random.pick(&[65_535, 65_536, 65_537, LARGEST_ROOM])
        }
        Err(_) => room_near(random, None),
    }
}

/// A few bytes stand behind some descriptions, and as many as may be behind some
/// of the large ones.
fn case_of(random: &mut Random, operation: Operation, room: u32, mut buffer: Vec<u8>) -> Case {
    if buffer.len() > 100_000 && random.percent(30) {
        buffer.resize(LARGEST_DESCRIPTION as usize, 0);
    } else if random.percent(5) {
        let more = random.between(1, 9);
        buffer.extend(random.bytes(more));
    }
    Case { operation, stated: 0, row: 0, room, buffer }
}

/// The description of a case; large ones have their slots.
pub fn any_description(random: &mut Random, slot: u64) -> Description {
    if let Some(turn) = large_turn(slot) {
        return large_description(random, turn);
    }
    let kind = random.below(100);
    let mut description = match kind {
        0..=85 => good_description(random),
        _ => read_description(random),
    };
    let clauses = description_clauses();
    match kind {
        0..=26 | 92.. => {}
        27..=64 => {
            let clause = random.pick(&clauses);
            damage(random, &mut description, clause);
        }
        65..=79 => {
            for clause in several_clauses(random, &clauses) {
                damage(random, &mut description, clause);
            }
        }
        _ => change_one(random, &mut description),
    }
    description
}

/// The body of a case; large ones have their slots.
pub fn any_body(random: &mut Random, slot: u64) -> BodyDescription {
    if let Some(turn) = large_turn(slot) {
        return large_body(random, turn);
    }
    let voice = random.pick(&[Voice::Score, Voice::Pcm]);
    let mut body = BodyDescription { voice, table: good_table(random, voice) };
    let faults = match random.below(100) {
        0..=29 => 0,
        30..=79 => 1,
        80..=86 => {
            let place = random.between(0, body.table.items.len());
            body.table.items.insert(place, wild_item(random));
            0
        }
        87..=89 => {
            body.table.items.clear();
            0
        }
        _ => random.between(2, 3),
    };
    for _ in 0..faults {
        put_faulty_item(random, &mut body);
    }
    body
}

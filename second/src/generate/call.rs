//! Calls: an operation on a file with a stated length, a row number and room.

use crate::case::{Case, Operation, LARGEST_ROOM};
use crate::file::{open, Melody};
use crate::give::entries_of;
use crate::plain::plain_length;
use crate::play::Performance;
use crate::random::Random;

pub fn call(random: &mut Random, operation: Operation, file: Vec<u8>) -> Case {
    if operation == Operation::Listing {
        return Case { operation, stated: 0, row: 0, room: 0, buffer: file };
    }
    let melody = open(&file, file.len() as u32).ok();
    let row = row_number(random, melody.as_ref());
    let need = melody.and_then(|melody| room_needed(operation, &melody, row));
    let room = room_near(random, need);
    let (stated, buffer) = stated_length(random, file);
    Case { operation, stated, row, room, buffer }
}

/// A readable track's row mostly.
fn row_number(random: &mut Random, melody: Option<&Melody>) -> u32 {
    let Some(melody) = melody else { return random.below(6) as u32 };
    let rows = melody.rows.len();
    match random.below(100) {
        0..=3 => random.below(rows) as u32,
        4..=5 => random.between(rows, rows + 2) as u32,
        6 => random.pick(&[u32::MAX, 0x8000_0000, 0x0001_0002, 0x0100_0002]),
        _ if melody.tracks.is_empty() => random.below(rows) as u32,
        _ => melody.tracks[random.below(melody.tracks.len())].0 as u32,
    }
}

fn room_needed(operation: Operation, melody: &Melody, row: u32) -> Option<u64> {
    if operation == Operation::Read {
        return Some(melody.rows.len() as u64);
    }
    let track = melody.track(row).ok()?;
    match operation {
        Operation::Items => Some(track.sequence.items.len() as u64),
        Operation::Entries => Some(entries_of(&track.seek).len() as u64),
        Operation::Play => Some(Performance::of(track).ok()?.message_count()),
        _ => Some(plain_length(&Performance::of(track).ok()?, &track.sequence)),
    }
}

pub fn room_near(random: &mut Random, need: Option<u64>) -> u32 {
    let largest = u64::from(LARGEST_ROOM);
    let need = need.unwrap_or(10).min(largest);
    let room = match random.below(100) {
        0..=34 => need,
        35..=44 => need + 1,
        45..=54 => need.saturating_sub(1),
        55..=57 => 0,
        58..=77 => largest,
        _ => need + random.below(20) as u64,
    };
    room.min(largest) as u32
}

/// The file's own length mostly, with bytes after it in the buffer or not.
fn stated_length(random: &mut Random, mut buffer: Vec<u8>) -> (u32, Vec<u8>) {
    let length = buffer.len() as u32;
    let room_left = (LARGEST_ROOM as usize).saturating_sub(buffer.len());
    let kind = random.below(200);
    if kind < 20 {
        let count = random.between(1, 9).min(room_left);
        let more = if random.percent(30) { vec![0; count] } else { random.bytes(count) };
        buffer.extend(more);
    }
    let stated = match kind {
        0..=3 | 20..=23 => length + 1,
        24..=27 => length.saturating_sub(1),
        28 => 0,
        29 => random.pick(&[0xFFFF_FFFF, 0x8000_0000, 0x0001_0000, 0x0001_0000 + length]),
        30 => random.below(buffer.len() + 3) as u32,
        _ => length,
    };
    (stated, buffer)
}

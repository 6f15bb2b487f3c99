//! Mutations: changes without a plan, to chunks and to bytes.

use crate::generate::file::FilePlan;
use crate::generate::tree::{put_code, Chunk, Draft};
use crate::random::Random;

const HOSTILE: [u32; 7] =
    [0xFFFF_FFFF, 0x7FFF_FFFF, 0x8000_0000, 0xFFFF_FFF8, 0x0000_FFFF, 0x0001_0000, 0];

/// Changes a few bytes of a stretch: other values, more bytes or fewer.
pub fn change_bytes(random: &mut Random, bytes: &mut Vec<u8>) {
    let changes = random.between(1, 3);
    for _ in 0..changes {
        let place = random.between(0, bytes.len());
        let value = if random.percent(50) {
            random.byte()
        } else {
            random.pick(&[0x00, 0x01, 0x7F, 0x80, 0xF0, 0xF7, 0xFF, b',', b':', b'S'])
        };
        match random.below(4) {
            0 => bytes.insert(place, value),
            1 if place < bytes.len() => drop(bytes.remove(place)),
            2 if place < bytes.len() => bytes[place] ^= 1 << random.below(8),
            _ if place < bytes.len() => bytes[place] = value,
            _ => bytes.push(value),
        }
    }
}

/// Changes a track in ways that keep its bytes whole and mislead a reader.
pub fn change_plan(random: &mut Random, plan: &mut FilePlan) {
    let track = plan.track(random, None, None);
    let zeros = vec![0; random.between(1, 9)];
    match random.below(4) {
        0 => track.fixed[1] ^= 1,
        1 => track.id[0] = if track.id[0] == b'M' { b'A' } else { b'M' },
        2 => {
            let place = random.between(0, track.sequence.items.len());
            track.sequence.items.insert(place, zeros);
        }
        _ => track.sequence.items.push(zeros),
    }
}

fn any_leaf<'a>(random: &mut Random, chunk: &'a mut Chunk) -> &'a mut Chunk {
    if chunk.children.is_empty() {
        return chunk;
    }
    let index = random.below(chunk.children.len());
    any_leaf(random, &mut chunk.children[index])
}

fn any_parent<'a>(random: &mut Random, root: &'a mut Chunk) -> &'a mut Chunk {
    let parents: Vec<usize> = (0..root.children.len())
        .filter(|index| !root.children[*index].children.is_empty())
        .collect();
    match parents.is_empty() || random.percent(30) {
        true => root,
        false => &mut root.children[random.pick(&parents)],
    }
}

/// Changes chunks and leaves the sizes right.
pub fn change_tree(random: &mut Random, draft: &mut Draft) {
    match random.below(6) {
        0..=2 => {
            let leaf = any_leaf(random, &mut draft.root);
            change_bytes(random, &mut leaf.fixed);
        }
        3 => change_list(random, &mut draft.root),
        4 => {
            let leaf = any_leaf(random, &mut draft.root);
            leaf.id[random.below(4)] = random.byte();
        }
        _ => {
            let track = any_parent(random, &mut draft.root);
            change_bytes(random, &mut track.fixed);
        }
    }
}

/// Takes a chunk away, doubles one or changes their order.
fn change_list(random: &mut Random, root: &mut Chunk) {
    let parent = any_parent(random, root);
    let count = parent.children.len();
    if count == 0 {
        return;
    }
    let index = random.below(count);
    match random.below(3) {
        0 => drop(parent.children.remove(index)),
        1 => {
            let copy = parent.children[index].clone();
            parent.children.push(copy);
        }
        _ => random.shuffle(&mut parent.children),
    }
}

/// Gives one chunk a size that is a little or very wrong.
pub fn change_size(random: &mut Random, draft: &mut Draft) {
    let leaf = random.percent(60);
    let chunk = match leaf {
        true => any_leaf(random, &mut draft.root),
        false => any_parent(random, &mut draft.root),
    };
    let right = chunk.body().len() as u32;
    let near = [right + 1, right.saturating_sub(1), right + 2, right + 8, right.saturating_sub(8)];
    let wrong = if random.percent(60) { random.pick(&near) } else { random.pick(&HOSTILE) };
    chunk.size = Some(wrong);
}

/// Changes bytes of the whole file; mends its size and code now and then.
pub fn change_file(random: &mut Random, bytes: &mut Vec<u8>) {
    change_bytes(random, bytes);
    mend(random, bytes);
}

pub fn truncate(random: &mut Random, bytes: &mut Vec<u8>) {
    bytes.truncate(random.below(bytes.len() + 1));
    mend(random, bytes);
}

fn mend(random: &mut Random, bytes: &mut [u8]) {
    if random.percent(70) && bytes.len() >= 10 {
        let size = (bytes.len() as u32 - 8).to_be_bytes();
        bytes[4..8].copy_from_slice(&size);
    }
    if random.percent(50) {
        put_code(bytes);
    }
}

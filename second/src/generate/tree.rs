//! Files as trees of chunks, and their bytes.

use crate::check_code::check_code;
use crate::numbers::Id;
use crate::random::Random;

/// A chunk: `fixed` bytes, then chunks, then a `tail`. `size` stands for the
/// right size where it is given.
#[derive(Clone, Debug)]
pub struct Chunk {
    pub id: Id,
    pub size: Option<u32>,
    pub fixed: Vec<u8>,
    pub children: Vec<Chunk>,
    pub tail: Vec<u8>,
}

impl Chunk {
    pub fn leaf(id: Id, body: Vec<u8>) -> Chunk {
        Chunk { id, size: None, fixed: body, children: Vec::new(), tail: Vec::new() }
    }

    pub fn body(&self) -> Vec<u8> {
        let mut body = self.fixed.clone();
        for child in &self.children {
            child.write(&mut body);
        }
        body.extend(&self.tail);
        body
    }

    pub fn write(&self, bytes: &mut Vec<u8>) {
        let body = self.body();
        bytes.extend(self.id);
        bytes.extend(self.size.unwrap_or(body.len() as u32).to_be_bytes());
        bytes.extend(body);
    }

    pub fn has_child(&self, id: Id) -> bool {
        self.children.iter().any(|child| child.id == id)
    }
}

/// A whole file before its check code. `cut` bytes of it are kept.
#[derive(Clone, Debug)]
pub struct Draft {
    pub root: Chunk,
    pub cut: Option<usize>,
    pub right_code: bool,
}

impl Draft {
    pub fn bytes(&self, random: &mut Random) -> Vec<u8> {
        let mut root = self.root.clone();
        root.tail.extend([0; 2]);
        let mut bytes = Vec::new();
        root.write(&mut bytes);
        put_code(&mut bytes);
        if !self.right_code {
            let last = bytes.len() - 1 - random.below(2);
            bytes[last] ^= random.byte_between(1, 255);
        }
        bytes.truncate(self.cut.unwrap_or(bytes.len()));
        bytes
    }
}

/// Writes the right check code into the last two bytes.
pub fn put_code(bytes: &mut [u8]) {
    if let Some(before) = bytes.len().checked_sub(2) {
        let code = check_code(&bytes[..before]).to_be_bytes();
        bytes[before..].copy_from_slice(&code);
    }
}

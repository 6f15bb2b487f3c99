//! Numbers, most significant byte first, and the four-byte IDs.

pub type Id = [u8; 4];

/// The most bytes a file or a plain form may have.
pub const LARGEST: usize = 65_536;

/// A stretch of the file: the first byte and the byte after the last.
#[derive(Clone, Copy, Debug, PartialEq, Eq)]
pub struct Stretch {
    pub start: usize,
    pub end: usize,
}

impl Stretch {
    pub fn length(&self) -> usize {
        self.end - self.start
    }

    pub fn of<'a>(&self, file: &'a [u8]) -> &'a [u8] {
        &file[self.start..self.end]
    }
}

/// The four bytes at `at`, or nothing where they are not all there.
pub fn four_bytes(bytes: &[u8], at: usize) -> Option<[u8; 4]> {
    let stretch = bytes.get(at..at.checked_add(4)?)?;
    stretch.try_into().ok()
}

pub fn number_at(bytes: &[u8], at: usize) -> Option<u32> {
    four_bytes(bytes, at).map(u32::from_be_bytes)
}

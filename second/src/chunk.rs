//! Chunk lists: headers, sizes and repeated IDs.

use crate::numbers::{four_bytes, number_at, Id, Stretch};
use crate::refusal::{Clause, Refusal};
use std::collections::HashSet;

#[derive(Clone, Copy, Debug, PartialEq, Eq)]
pub struct Header {
    pub id: Id,
    pub place: usize,
    pub size: usize,
}

impl Header {
    pub fn body(&self) -> Stretch {
        Stretch { start: self.place + 8, end: self.place + 8 + self.size }
    }
}

/// A list of a file: where it stands, and how its faults are called.
pub struct List<'a> {
    pub file: &'a [u8],
    pub stretch: Stretch,
    pub header_under_eight: Clause,
    pub size_past_end: Clause,
    pub id_again: Clause,
}

impl List<'_> {
    /// Walks the list: for each chunk the header and its size (4), then what
    /// `allowed` says (9), then whether its ID stood before (6).
    pub fn walk(&self, allowed: impl Fn(Id) -> Result<(), Clause>) -> Result<Vec<Header>, Refusal> {
        let mut headers = Vec::new();
        let mut seen = HashSet::new();
        let mut at = self.stretch.start;
        while at < self.stretch.end {
            let header = self.header_at(at)?;
            allowed(header.id).map_err(|clause| Refusal::at(clause, at))?;
            if !seen.insert(header.id) {
                return Err(Refusal::at(self.id_again, at));
            }
            headers.push(header);
            at = header.body().end;
        }
        Ok(headers)
    }

    fn header_at(&self, at: usize) -> Result<Header, Refusal> {
        let inside = &self.file[..self.stretch.end];
        let (Some(id), Some(size)) = (four_bytes(inside, at), number_at(inside, at + 4)) else {
            return Err(Refusal::at(self.header_under_eight, at));
        };
        let size = size as usize;
        if size > self.stretch.end - at - 8 {
            return Err(Refusal::at(self.size_past_end, at));
        }
        Ok(Header { id, place: at, size })
    }
}

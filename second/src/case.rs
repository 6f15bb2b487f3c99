//! Cases and their answers: one operation on one buffer, as bytes in and text
//! out.

use crate::description::{BodyDescription, Description, SeekEntry};
use crate::file::{read, Melody};
use crate::give::{entries, items};
use crate::listing::listing;
use crate::numbers::number_at;
use crate::pitch::pitch;
use crate::plain::flatten;
use crate::play::{play, word_of, Played};
use crate::progress::progress;
use crate::refusal::Refusal;
use crate::word::WordItem;
use crate::write::{write_body, write_file};
use std::fmt::Write;

/// The largest room, and the largest buffer that holds a file.
pub const LARGEST_ROOM: u32 = 70_000;

/// The largest buffer that holds a description.
pub const LARGEST_DESCRIPTION: u32 = 300_000;

/// The operation byte and the four numbers.
const HEAD: usize = 17;

pub const KEPT: &str = "-- kept\n";
pub const SPOILT: &str = "-- spoilt\n";
pub const BAD_CASE: &str = "bad case\n";

#[derive(Clone, Copy, Debug, PartialEq, Eq, Hash, PartialOrd, Ord)]
pub enum Operation {
    Read,
    Play,
    Flatten,
    Pitch,
    Listing,
    Write,
    Items,
    Entries,
    WriteBody,
}

impl Operation {
    pub fn from_letter(letter: u8) -> Option<Operation> {
        match letter {
            b'r' => Some(Operation::Read),
            b'p' => Some(Operation::Play),
            b'f' => Some(Operation::Flatten),
            b't' => Some(Operation::Pitch),
            b'l' => Some(Operation::Listing),
            b'w' => Some(Operation::Write),
            b'm' => Some(Operation::Items),
            b's' => Some(Operation::Entries),
            b'b' => Some(Operation::WriteBody),
            _ => None,
        }
    }

    pub fn letter(self) -> u8 {
        match self {
            Operation::Read => b'r',
            Operation::Play => b'p',
            Operation::Flatten => b'f',
            Operation::Pitch => b't',
            Operation::Listing => b'l',
            Operation::Write => b'w',
            Operation::Items => b'm',
            Operation::Entries => b's',
            Operation::WriteBody => b'b',
        }
    }

    /// Whether its buffer holds a file that is read.
    pub fn reads_file(self) -> bool {
        !matches!(self, Operation::Pitch | Operation::Write | Operation::WriteBody)
    }

    pub fn largest_buffer(self) -> u32 {
        match self {
            Operation::Write | Operation::WriteBody => LARGEST_DESCRIPTION,
            _ => LARGEST_ROOM,
        }
    }
}

#[derive(Clone, Debug, PartialEq, Eq)]
pub struct Case {
    pub operation: Operation,
    pub stated: u32,
    pub row: u32,
    pub room: u32,
    pub buffer: Vec<u8>,
}

/// What stands next in a stream of cases.
#[derive(Clone, Debug, PartialEq, Eq)]
pub enum Next {
    Case(Case),
    Bad,
    End,
}

/// Takes the next case off the front of the stream.
pub fn next_case(stream: &mut &[u8]) -> Next {
    if stream.is_empty() {
        return Next::End;
    }
    match take_case(stream) {
        Some((case, length)) => {
            *stream = &stream[length..];
            Next::Case(case)
        }
        None => Next::Bad,
    }
}

fn take_case(stream: &[u8]) -> Option<(Case, usize)> {
    let operation = Operation::from_letter(*stream.first()?)?;
    let stated = number_at(stream, 1)?;
    let row = number_at(stream, 5)?;
    let room = number_at(stream, 9)?;
    let length = number_at(stream, 13)?;
    if room > LARGEST_ROOM || length > operation.largest_buffer() {
        return None;
    }
    let end = HEAD + length as usize;
    let buffer = stream.get(HEAD..end)?.to_vec();
    let case = Case { operation, stated, row, room, buffer };
    case.is_whole().then_some((case, end))
}

impl Case {
    pub fn bytes(&self) -> Vec<u8> {
        let mut bytes = vec![self.operation.letter()];
        for number in [self.stated, self.row, self.room, self.buffer.len() as u32] {
            bytes.extend(number.to_be_bytes());
        }
        bytes.extend(&self.buffer);
        bytes
    }

    /// Whether the description in the buffer, if there is to be one, is not cut.
    pub fn is_whole(&self) -> bool {
        match self.operation {
            Operation::Write => Description::from_bytes(&self.buffer).is_some(),
            Operation::WriteBody => BodyDescription::from_bytes(&self.buffer).is_some(),
            _ => true,
        }
    }

    /// The bytes that a case of the writer is answered with, or the refusal.
    /// Bytes behind the description, the stated length and the row number are not
    /// looked at; a case whose description is cut is none (`next_case`).
    fn written(&self) -> Result<Vec<u8>, Refusal> {
        let (buffer, room) = (&self.buffer, self.room as usize);
        match self.operation {
            Operation::Write => {
                write_file(&Description::from_bytes(buffer).expect("the case is whole"), room)
            }
            _ => write_body(&BodyDescription::from_bytes(buffer).expect("the case is whole"), room),
        }
    }

    /// The answer's text without the line on lent memory, or the refusal.
    pub fn answer(&self) -> Result<String, Refusal> {
        let Case { stated, row, .. } = *self;
        let room = self.room as usize;
        match self.operation {
            Operation::Read => read(&self.buffer, stated, room).map(|melody| rows_text(&melody)),
            Operation::Play => {
                play(&self.buffer, stated, row, room).map(|played| played_text(&played))
            }
            Operation::Flatten => {
                flatten(&self.buffer, stated, row, room).map(|plain| bytes_text(&plain))
            }
            Operation::Pitch => {
                pitch(stated as u8, row as u8).map(|pitch| format!("pitch {pitch}\n"))
            }
            Operation::Listing => listing(&self.buffer),
            Operation::Items => {
                items(&self.buffer, stated, row, room).map(|items| items_text(&items))
            }
            Operation::Entries => {
                entries(&self.buffer, stated, row, room).map(|entries| entries_text(&entries))
            }
            Operation::Write | Operation::WriteBody => {
                self.written().map(|bytes| bytes_text(&bytes))
            }
        }
    }

    /// The whole text that answers the case.
    pub fn answer_text(&self) -> String {
        text_of(&self.answer())
    }
}

pub fn text_of(answer: &Result<String, Refusal>) -> String {
    let mut text = match answer {
        Ok(text) => text.clone(),
        Err(refusal) => refusal.text(),
    };
    text.push_str(KEPT);
    text
}

fn rows_text(melody: &Melody) -> String {
    let verdict = if melody.verdict { "yes" } else { "no" };
    let count = melody.rows.len();
    let mut text = format!("rows {count} code {:04x} verdict {verdict}\n", melody.code);
    for row in &melody.rows {
        let id = u32::from_be_bytes(row.id);
        let _ = writeln!(text, "{id:08x} {} {} {}", row.place, row.size, row.container);
    }
    text
}

fn played_text(played: &Played) -> String {
    let mut text = format!("rows {} end {}\n", played.messages.len(), played.end);
    for (step, message) in &played.messages {
        let _ = writeln!(text, "{step} {:08x}", word_of(message));
    }
    text
}

fn bytes_text(bytes: &[u8]) -> String {
    let mut text = format!("bytes {}\n", bytes.len());
    add_hex(&mut text, bytes);
    text
}

/// A line of bytes, empty where there are none.
fn add_hex(text: &mut String, bytes: &[u8]) {
    for byte in bytes {
        let _ = write!(text, "{byte:02x}");
    }
    text.push('\n');
}

fn items_text(items: &[WordItem]) -> String {
    let mut text = format!("rows {}\n", items.len());
    for item in items {
        let _ = writeln!(text, "{} {:08x}", item.duration, item.word.0);
    }
    text
}

fn entries_text(entries: &[SeekEntry]) -> String {
    let mut text = format!("rows {}\n", entries.len());
    for SeekEntry { kind, letter, from, to, letters } in entries {
        let _ = writeln!(text, "{kind} {letter:02x} {from} {to}");
        if *kind == SeekEntry::LIST {
            add_hex(&mut text, letters);
        }
    }
    text
}

/// Answers a whole stream of cases.
pub fn answer_stream(cases: &[u8], mut say: impl FnMut(&str)) {
    let mut rest = cases;
    for done in 1.. {
        match next_case(&mut rest) {
            Next::Case(case) => say(&case.answer_text()),
            Next::Bad => return say(BAD_CASE),
            Next::End => return,
        }
        progress(done, "cases");
    }
}

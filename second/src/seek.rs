//! The seek body: its entries, and the rules for addresses, positions and
//! letters.

use crate::item::Sequence;
use crate::numbers::number_at;
use crate::refusal::{Clause, Refusal};

/// The letters that may follow the `P` of a phrase tag.
pub const LETTERS: &[u8; 33] = b"abcdefghijklmnopqrstuvwxyzABEIKSR";

/// An `st` or `sp` entry; `place` is its first tag byte in the body.
#[derive(Clone, Copy, Debug, PartialEq, Eq)]
pub struct Point {
    pub place: usize,
    pub value: u32,
}

#[derive(Clone, Copy, Debug, PartialEq, Eq)]
pub struct Phrase {
    pub place: usize,
    pub letter: u8,
    pub start: u32,
    pub stop: u32,
}

/// The order list; `place` is where its first letter stands in the body.
#[derive(Clone, Debug, PartialEq, Eq)]
pub struct OrderList {
    pub place: usize,
    pub letters: Vec<u8>,
}

#[derive(Clone, Debug, Default, PartialEq, Eq)]
pub struct Seek {
    pub start: Option<Point>,
    pub stop: Option<Point>,
    pub phrases: Vec<Phrase>,
    pub list: Option<OrderList>,
}

/// The order in which entries must stand.
#[derive(Clone, Copy, Debug, PartialEq, Eq, PartialOrd, Ord)]
enum Rank {
    Start,
    Stop,
    Phrase,
    List,
}

/// Reads a seek body (refusal 12); places are counted from its start.
pub fn read_seek(body: &[u8], phrases: bool) -> Result<Seek, Refusal> {
    if body.is_empty() {
        return Err(Refusal::at(Clause::SeekEmpty, 0));
    }
    let mut seek = Seek::default();
    let mut at = 0;
    while at < body.len() {
        let end =
            read_entry(body, at, phrases, &mut seek).map_err(|clause| Refusal::at(clause, at))?;
        at = end + 1;
    }
    Ok(seek)
}

/// Reads the entry at `at` and gives the place of its comma, or the body's
/// length.
fn read_entry(body: &[u8], at: usize, phrases: bool, seek: &mut Seek) -> Result<usize, Clause> {
    let tag = body.get(at..at + 2).ok_or(Clause::TagCut)?;
    let rank = match tag {
        b"st" => Rank::Start,
        b"sp" => Rank::Stop,
        b"SL" => Rank::List,
        [b'P', letter] if LETTERS.contains(letter) => Rank::Phrase,
        _ => return Err(Clause::TagUnknown),
    };
    if body.get(at + 2) != Some(&b':') {
        return Err(Clause::ColonMissing);
    }
    check_order(seek, rank, tag[1])?;
    let data = at + 3;
    let end = match rank {
        Rank::Start => take_point(body, at, phrases, &mut seek.start)?,
        Rank::Stop => take_point(body, at, phrases, &mut seek.stop)?,
        Rank::Phrase => take_phrase(body, at, tag[1], &mut seek.phrases)?,
        Rank::List => take_list(body, data, &mut seek.list)?,
    };
    match (body.get(end), rank) {
        (None | Some(b','), _) => Ok(end),
        (_, Rank::List) => Err(Clause::LetterOutsideSet),
        _ => Err(Clause::SeparatorWrong),
    }
}

/// No tag twice, and none before one that it must follow.
fn check_order(seek: &Seek, rank: Rank, letter: u8) -> Result<(), Clause> {
    let again = match rank {
        Rank::Start => seek.start.is_some(),
        Rank::Stop => seek.stop.is_some(),
        Rank::Phrase => seek.phrase(letter).is_some(),
        Rank::List => seek.list.is_some(),
    };
    if again {
        return Err(Clause::TagTwice);
    }
    let later = (rank < Rank::Stop && seek.stop.is_some())
        || (rank < Rank::Phrase && !seek.phrases.is_empty())
        || (rank < Rank::List && seek.list.is_some());
    match later {
        true => Err(Clause::TagOutOfOrder),
        false => Ok(()),
    }
}

fn take_point(
    body: &[u8],
    place: usize,
    phrases: bool,
    point: &mut Option<Point>,
) -> Result<usize, Clause> {
    let data = place + 3;
    let (value, end) = if phrases {
        (body.get(data).map(|byte| u32::from(*byte)), data + 1)
    } else {
        (number_at(body, data), data + 4)
    };
    let value = value.ok_or(Clause::DataCut)?;
    *point = Some(Point { place, value });
    Ok(end)
}

fn take_phrase(
    body: &[u8],
    place: usize,
    letter: u8,
    phrases: &mut Vec<Phrase>,
) -> Result<usize, Clause> {
    let data = place + 3;
    let start = number_at(body, data).ok_or(Clause::DataCut)?;
    let stop = number_at(body, data + 4).ok_or(Clause::DataCut)?;
    phrases.push(Phrase { place, letter, start, stop });
    Ok(data + 8)
}

fn take_list(body: &[u8], data: usize, list: &mut Option<OrderList>) -> Result<usize, Clause> {
    let letters: Vec<u8> =
        body[data..].iter().copied().take_while(|letter| LETTERS.contains(letter)).collect();
    let end = data + letters.len();
    *list = Some(OrderList { place: data, letters });
    Ok(end)
}

impl Seek {
    pub fn phrase(&self, letter: u8) -> Option<&Phrase> {
        self.phrases.iter().find(|phrase| phrase.letter == letter)
    }

    pub fn list_length(&self) -> u32 {
        self.list.as_ref().map_or(0, |list| list.letters.len() as u32)
    }

    /// Refusals 13 and 14; places are counted from the seek body's start.
    pub fn check(&self, sequence: &Sequence, phrases: bool) -> Result<(), Refusal> {
        if phrases {
            self.check_positions()?;
        } else {
            self.check_points(sequence)?;
        }
        for phrase in &self.phrases {
            check_phrase(phrase, sequence)?;
        }
        match phrases {
            true => self.check_letters(),
            false => Ok(()),
        }
    }

    fn check_points(&self, sequence: &Sequence) -> Result<(), Refusal> {
        if let Some(start) = self.start {
            if !sequence.is_address(start.value) {
                return Err(Refusal::at(Clause::StreamStartNoAddress, start.place));
            }
        }
        if let Some(stop) = self.stop {
            if !sequence.is_address(stop.value) {
                return Err(Refusal::at(Clause::StreamStopNoAddress, stop.place));
            }
            if self.start_value() > stop.value {
                return Err(Refusal::at(Clause::StreamStartOverStop, stop.place));
            }
        }
        Ok(())
    }

    fn check_positions(&self) -> Result<(), Refusal> {
        let length = self.list_length();
        if let Some(start) = self.start {
            if start.value > length {
                return Err(Refusal::at(Clause::PositionStartOverLength, start.place));
            }
        }
        if let Some(stop) = self.stop {
            if stop.value > length {
                return Err(Refusal::at(Clause::PositionStopOverLength, stop.place));
            }
            if self.start_value() > stop.value {
                return Err(Refusal::at(Clause::PositionStartOverStop, stop.place));
            }
        }
        Ok(())
    }

    fn check_letters(&self) -> Result<(), Refusal> {
        let Some(list) = &self.list else { return Ok(()) };
        for (index, letter) in list.letters.iter().enumerate() {
            if self.phrase(*letter).is_none() {
                return Err(Refusal::at(Clause::LetterWithoutPhrase, list.place + index));
            }
        }
        Ok(())
    }

    /// The given `st`, or 0.
    pub fn start_value(&self) -> u32 {
        self.start.map_or(0, |start| start.value)
    }
}

fn check_phrase(phrase: &Phrase, sequence: &Sequence) -> Result<(), Refusal> {
    let clause = if !sequence.is_address(phrase.start) {
        Clause::PhraseStartNoAddress
    } else if !sequence.is_address(phrase.stop) {
        Clause::PhraseStopNoAddress
    } else if phrase.start > phrase.stop {
        Clause::PhraseStartOverStop
    } else {
        return Ok(());
    };
    Err(Refusal::at(clause, phrase.place))
}

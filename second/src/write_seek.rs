//! Seek entries to be written: their faults, and the body they make.

use crate::description::SeekEntry;
use crate::item::Sequence;
use crate::refusal::Clause;
use crate::seek::{OrderList, Phrase, Point, Seek, LETTERS};

/// Refusal 12, entry by entry.
pub fn check_entries(entries: &[SeekEntry], phrases: bool) -> Result<(), Clause> {
    for (index, entry) in entries.iter().enumerate() {
        check_form(entry, phrases)?;
        check_order(entry, &entries[..index])?;
    }
    Ok(())
}

/// What an entry's kind does not use is not looked at.
fn check_form(entry: &SeekEntry, phrases: bool) -> Result<(), Clause> {
    let in_set = |letter: &u8| LETTERS.contains(letter);
    match entry.kind {
        SeekEntry::START | SeekEntry::STOP if phrases && entry.from > 255 => {
            Err(Clause::EntryPointOver255)
        }
        SeekEntry::START | SeekEntry::STOP => Ok(()),
        SeekEntry::PHRASE if !in_set(&entry.letter) => Err(Clause::EntryPhraseLetter),
        SeekEntry::PHRASE => Ok(()),
        SeekEntry::LIST if !entry.letters.iter().all(in_set) => Err(Clause::EntryListLetter),
        SeekEntry::LIST => Ok(()),
        _ => Err(Clause::EntryUnknown),
    }
}

/// No tag twice, and none before one that it must follow.
fn check_order(entry: &SeekEntry, before: &[SeekEntry]) -> Result<(), Clause> {
    let same_tag = |other: &SeekEntry| {
        other.kind == entry.kind
            && (other.kind != SeekEntry::PHRASE || other.letter == entry.letter)
    };
    if before.iter().any(same_tag) {
        return Err(Clause::EntryTwice);
    }
    match before.iter().any(|other| other.kind > entry.kind) {
        true => Err(Clause::EntryOutOfOrder),
        false => Ok(()),
    }
}

/// Refusals 13 and 14 as the reader finds them, on the body that the items make.
pub fn check_points(
    entries: &[SeekEntry],
    sequence: &Sequence,
    phrases: bool,
) -> Result<(), Clause> {
    seek_of(entries).check(sequence, phrases).map_err(|refusal| writers_clause(refusal.clause))
}

/// Entries without the faults of refusal 12, as the reader holds them.
fn seek_of(entries: &[SeekEntry]) -> Seek {
    let mut seek = Seek::default();
    for entry in entries {
        let SeekEntry { letter, from, to, .. } = *entry;
        match entry.kind {
            SeekEntry::START => seek.start = Some(Point { place: 0, value: from }),
            SeekEntry::STOP => seek.stop = Some(Point { place: 0, value: from }),
            SeekEntry::PHRASE => {
                seek.phrases.push(Phrase { place: 0, letter, start: from, stop: to });
            }
            _ => seek.list = Some(OrderList { place: 0, letters: entry.letters.clone() }),
        }
    }
    seek
}

/// The writer's clause for one of the reader's clauses of refusals 13 and 14.
fn writers_clause(clause: Clause) -> Clause {
    match clause {
        Clause::StreamStartNoAddress => Clause::EntryStartNoAddress,
        Clause::StreamStopNoAddress => Clause::EntryStopNoAddress,
        Clause::StreamStartOverStop => Clause::EntryStartOverStop,
        Clause::PhraseStartNoAddress => Clause::EntryPhraseStartNoAddress,
        Clause::PhraseStopNoAddress => Clause::EntryPhraseStopNoAddress,
        Clause::PhraseStartOverStop => Clause::EntryPhraseStartOverStop,
        Clause::PositionStartOverLength => Clause::EntryPositionStartOverLength,
        Clause::PositionStopOverLength => Clause::EntryPositionStopOverLength,
        Clause::PositionStartOverStop => Clause::EntryPositionStartOverStop,
        Clause::LetterWithoutPhrase => Clause::EntryLetterWithoutPhrase,
        other => unreachable!("{other:?} is no clause of points and letters"),
    }
}

/// The seek body of entries without faults: a comma between them, none at the
/// end.
pub fn seek_body(entries: &[SeekEntry], phrases: bool) -> Vec<u8> {
    let entries: Vec<Vec<u8>> = entries.iter().map(|entry| entry_bytes(entry, phrases)).collect();
    entries.join(&b","[..])
}

fn entry_bytes(entry: &SeekEntry, phrases: bool) -> Vec<u8> {
    let point = match phrases {
        true => vec![entry.from as u8],
        false => entry.from.to_be_bytes().to_vec(),
    };
    match entry.kind {
        SeekEntry::START => [b"st:", &point[..]].concat(),
        SeekEntry::STOP => [b"sp:", &point[..]].concat(),
        SeekEntry::PHRASE => {
            let addresses = [entry.from.to_be_bytes(), entry.to.to_be_bytes()].concat();
            [&[b'P', entry.letter, b':'][..], &addresses].concat()
        }
        _ => [b"SL:", &entry.letters[..]].concat(),
    }
}

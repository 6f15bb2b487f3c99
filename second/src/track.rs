//! A track: its fixed bytes, its list of sub-chunks and what they hold.

use crate::chunk::{Header, List};
use crate::item::{read_sequence, Sequence, Voice};
use crate::numbers::{Id, Stretch};
use crate::refusal::{Clause, Refusal};
use crate::seek::{read_seek, Seek};
use crate::setup::check_setup;
use crate::time_base::TimeBase;

const FIXED_BYTES: usize = 6;

/// A readable track. `body` is the sequence body's stretch of the file.
#[derive(Clone, Debug)]
pub struct Track {
    pub header: Header,
    pub voice: Voice,
    pub phrases: bool,
    pub base_d: TimeBase,
    pub base_g: TimeBase,
    pub chunks: Vec<Header>,
    pub body: Stretch,
    pub sequence: Sequence,
    pub seek: Seek,
}

/// How a top-level ID is to be taken.
#[derive(Clone, Copy, Debug, PartialEq, Eq)]
pub enum Part {
    Score,
    Pcm,
    OtherTrack,
    Leaf,
}

pub fn part_of(id: Id) -> Part {
    match &id {
        [b'M', b'T', b'R', _] => Part::Score,
        [b'A', b'T', b'R', _] => Part::Pcm,
        [b'G', b'T', b'R', _] | b"MSTR" => Part::OtherTrack,
        _ => Part::Leaf,
    }
}

/// The clauses of refusals 8 and 9 in the words of one voice.
struct Words {
    empty: Clause,
    format: Clause,
    under_six: Clause,
    sequence_type: Clause,
    base_d: Clause,
    base_g: Clause,
    not_allowed: Clause,
    sequence_missing: Clause,
}

const SCORE_WORDS: Words = Words {
    empty: Clause::ScoreEmpty,
    format: Clause::ScoreFormatOverTwo,
    under_six: Clause::ScoreUnderSix,
    sequence_type: Clause::ScoreSequenceType,
    base_d: Clause::ScoreTimeBaseD,
    base_g: Clause::ScoreTimeBaseG,
    not_allowed: Clause::ScoreChunkNotAllowed,
    sequence_missing: Clause::ScoreSequenceMissing,
};

const PCM_WORDS: Words = Words {
    empty: Clause::PcmEmpty,
    format: Clause::PcmFormatOverZero,
    under_six: Clause::PcmUnderSix,
    sequence_type: Clause::PcmSequenceType,
    base_d: Clause::PcmTimeBaseD,
    base_g: Clause::PcmTimeBaseG,
    not_allowed: Clause::PcmChunkNotAllowed,
    sequence_missing: Clause::PcmSequenceMissing,
};

fn words_of(voice: Voice) -> &'static Words {
    match voice {
        Voice::Score => &SCORE_WORDS,
        Voice::Pcm => &PCM_WORDS,
    }
}

struct Fixed {
    phrases: bool,
    base_d: TimeBase,
    base_g: TimeBase,
}

/// The fixed bytes; none for a closed score track.
fn read_fixed(body: &[u8], voice: Voice) -> Result<Option<Fixed>, Clause> {
    let words = words_of(voice);
    let format = *body.first().ok_or(words.empty)?;
    match (voice, format) {
        (_, 0) => {}
        (Voice::Score, 1 | 2) => return Ok(None),
        _ => return Err(words.format),
    }
    let fixed = body.get(..FIXED_BYTES).ok_or(words.under_six)?;
    let (code_d, code_g) = match voice {
        Voice::Score => (fixed[2], fixed[3]),
        Voice::Pcm => (fixed[4], fixed[5]),
    };
    let phrases = match fixed[1] {
        0 => false,
        1 => true,
        _ => return Err(words.sequence_type),
    };
    let base_d = TimeBase::from_code(code_d).ok_or(words.base_d)?;
    let base_g = TimeBase::from_code(code_g).ok_or(words.base_g)?;
    Ok(Some(Fixed { phrases, base_d, base_g }))
}

#[derive(Clone, Copy, PartialEq, Eq)]
enum Role {
    Seek,
    Setup,
    Sequence,
    Wave,
}

fn role_of(id: Id, voice: Voice) -> Option<Role> {
    match (voice, &id) {
        (Voice::Score, b"MspI") | (Voice::Pcm, b"AspI") => Some(Role::Seek),
        (Voice::Score, b"Mtsu") | (Voice::Pcm, b"Atsu") => Some(Role::Setup),
        (Voice::Score, b"Mtsq") | (Voice::Pcm, b"Atsq") => Some(Role::Sequence),
        (Voice::Pcm, [b'A', b'w', b'a', 0x01..=0x3E]) => Some(Role::Wave),
        _ => None,
    }
}

/// The body of the sub-chunk with that role, if there is one.
fn body_of(chunks: &[Header], voice: Voice, role: Role) -> Option<Stretch> {
    let chunk = chunks.iter().find(|chunk| role_of(chunk.id, voice) == Some(role))?;
    Some(chunk.body())
}

/// Reads the track under `header`; none for a closed score track.
pub fn read_track(file: &[u8], header: Header, voice: Voice) -> Result<Option<Track>, Refusal> {
    let place = header.body().start;
    let fixed =
        read_fixed(header.body().of(file), voice).map_err(|clause| Refusal::at(clause, place))?;
    let Some(fixed) = fixed else { return Ok(None) };
    let chunks = read_list(file, header, voice)?;
    let body = check_required(&chunks, header, voice)?;
    if let Some(setup) = body_of(&chunks, voice, Role::Setup) {
        check_setup(setup.of(file)).map_err(|refusal| refusal.in_body_at(setup.start))?;
    }
    let sequence =
        read_sequence(body.of(file), voice).map_err(|refusal| refusal.in_body_at(body.start))?;
    let seek = match body_of(&chunks, voice, Role::Seek) {
        None => Seek::default(),
        Some(stretch) => read_points(stretch.of(file), &sequence, fixed.phrases)
            .map_err(|refusal| refusal.in_body_at(stretch.start))?,
    };
    let Fixed { phrases, base_d, base_g } = fixed;
    Ok(Some(Track { header, voice, phrases, base_d, base_g, chunks, body, sequence, seek }))
}

fn read_points(body: &[u8], sequence: &Sequence, phrases: bool) -> Result<Seek, Refusal> {
    let seek = read_seek(body, phrases)?;
    seek.check(sequence, phrases)?;
    Ok(seek)
}

fn read_list(file: &[u8], header: Header, voice: Voice) -> Result<Vec<Header>, Refusal> {
    let body = header.body();
    let list = List {
        file,
        stretch: Stretch { start: body.start + FIXED_BYTES, end: body.end },
        header_under_eight: Clause::TrackHeaderUnderEight,
        size_past_end: Clause::TrackSizePastEnd,
        id_again: Clause::TrackIdAgain,
    };
    let not_allowed = words_of(voice).not_allowed;
    list.walk(|id| role_of(id, voice).map(|_| ()).ok_or(not_allowed))
}

/// The sequence body, when nothing required is missing.
fn check_required(chunks: &[Header], header: Header, voice: Voice) -> Result<Stretch, Refusal> {
    let missing = |clause| Refusal::at(clause, header.place);
    let sequence =
        body_of(chunks, voice, Role::Sequence).ok_or(missing(words_of(voice).sequence_missing))?;
    if voice == Voice::Pcm && body_of(chunks, voice, Role::Wave).is_none() {
        return Err(missing(Clause::WaveMissing));
    }
    Ok(sequence)
}

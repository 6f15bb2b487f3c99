//! The tunes of the folder tunes/: small files, each for one thing that a listing can show. Melodies are public domain.

use crate::frame::{chunk, whole_file};
use crate::tune::worked_tune;

/// A whole file and its name.
pub struct Tune {
    pub name: &'static str,
    pub file: Vec<u8>,
}

/// The items of a sequence body. What was played last is waited for before the next event.
#[derive(Default)]
struct Body {
    bytes: Vec<u8>,
    wait: u32,
}

impl Body {
    fn duration(&mut self, steps: u32) {
        match steps {
            0..=127 => self.bytes.push(steps as u8),
            _ => {
                self.bytes.extend([(128 + (steps - 128) / 128) as u8, ((steps - 128) % 128) as u8])
            }
        }
    }

    fn event(&mut self, bytes: &[u8]) {
        while self.wait > 16_511 {
            self.duration(16_511);
            self.bytes.extend([0xFF, 0x00]);
            self.wait -= 16_511;
        }
        let wait = std::mem::take(&mut self.wait);
        self.duration(wait);
        self.bytes.extend(bytes);
    }

    /// A note by its MIDI key, 37 to 84: 69 is the A of 440 Hz. It sounds for nine tenths of its length.
    fn note(&mut self, channel: u8, key: u8, length: u32) {
        let note = key - 37;
        self.event(&[channel << 6 | (note / 12) << 4 | (note % 12 + 1)]);
        self.duration((length * 9 / 10).max(1));
        self.wait = length;
    }

    fn wave(&mut self, channel: u8, number: u8, length: u32) {
        self.event(&[channel << 6 | number]);
        self.duration((length * 9 / 10).max(1));
        self.wait = length;
    }

    fn control(&mut self, channel: u8, code: u8, value: u8) {
        self.event(&[0x00, channel << 6 | 3 << 4 | code, value]);
    }

    /// Form 0 is expression, 1 pitch bend, 2 modulation.
    fn short(&mut self, channel: u8, form: u8, value: u8) {
        self.event(&[0x00, channel << 6 | form << 4 | value]);
    }

    fn melody(&mut self, channel: u8, notes: &[(u8, u32)]) {
        for &(key, length) in notes {
            self.note(channel, key, length);
        }
    }

    /// Notes of several voices: start, channel, key and length of each.
    fn together(&mut self, mut notes: Vec<(u32, u8, u8, u32)>) {
        notes.sort_by_key(|note| note.0);
        let mut now = 0;
        for (start, channel, key, length) in notes {
            self.wait = start - now;
            self.note(channel, key, length);
            now = start;
        }
    }

    fn rest(&mut self, steps: u32) {
        self.wait += steps;
    }

    /// Waits for what was played last, and says the address after it.
    fn pause(&mut self) -> u32 {
        if self.wait > 0 {
            self.event(&[0xFF, 0x00]);
        }
        self.bytes.len() as u32
    }

    /// An end mark, after what was played last.
    fn mark(&mut self) {
        self.pause();
        self.bytes.extend([0; 4]);
    }

    fn ended(mut self) -> Vec<u8> {
        self.mark();
        self.bytes
    }
}

const CONTENTS: [u8; 5] = [0; 5];
const STREAM: u8 = 0;
const PHRASES: u8 = 1;

/// 10 milliseconds a step.
const TEN: u8 = 0x10;

fn score(kind: u8, base: u8, parts: &[(&[u8; 4], Vec<u8>)]) -> Vec<u8> {
    let mut body = vec![0, kind, base, base, 0, 0];
    for (id, part) in parts {
        body.extend(chunk(id, part));
    }
    chunk(b"MTR\0", &body)
}

fn file(chunks: &[Vec<u8>]) -> Vec<u8> {
    whole_file(&[chunk(b"CNTI", &CONTENTS), chunks.concat()].concat())
}

fn stream(body: Body) -> Vec<u8> {
    file(&[score(STREAM, TEN, &[(b"Mtsq", body.ended())])])
}

fn address(tag: &[u8], place: u32) -> Vec<u8> {
    [tag, b":", &place.to_be_bytes()[..]].concat()
}

fn phrase(letter: u8, from: u32, to: u32) -> Vec<u8> {
    [&[b'P', letter, b':'][..], &from.to_be_bytes(), &to.to_be_bytes()].concat()
}

const QUARTER: u32 = 48;
const HALF: u32 = 96;

/// Beethoven, the first two lines.
fn ode(body: &mut Body) -> u32 {
    let line = [64, 64, 65, 67, 67, 65, 64, 62, 60, 60, 62, 64].map(|key| (key, QUARTER));
    body.melody(0, &line);
    body.melody(0, &[(64, 72), (62, 24), (62, HALF)]);
    let second = body.pause();
    body.melody(0, &line);
    body.melody(0, &[(62, 72), (60, 24), (60, HALF)]);
    second
}

fn ode_to_joy() -> Vec<u8> {
    let mut body = Body::default();
    body.control(0, 0, 24);
    body.control(0, 7, 100);
    ode(&mut body);
    stream(body)
}

fn second_line() -> Vec<u8> {
    let mut body = Body::default();
    let from = ode(&mut body);
    let to = body.pause();
    let seek = [address(b"st", from), address(b"sp", to)].join(&b',');
    file(&[score(STREAM, TEN, &[(b"MspI", seek), (b"Mtsq", body.ended())])])
}

const EIGHTH: u32 = 24;

/// A French round, line by line.
const JACQUES: [&[(u8, u32)]; 4] = [
    &[(60, QUARTER), (62, QUARTER), (64, QUARTER), (60, QUARTER)],
    &[(64, QUARTER), (65, QUARTER), (67, HALF)],
    &[(67, EIGHTH), (69, EIGHTH), (67, EIGHTH), (65, EIGHTH), (64, QUARTER), (60, QUARTER)],
    &[(60, QUARTER), (55, QUARTER), (60, HALF)],
];

/// Four voices, each two bars behind the one before, high and low in turn.
fn round_of_four() -> Vec<u8> {
    let mut body = Body::default();
    let mut notes = Vec::new();
    for voice in 0..4u8 {
        body.control(voice, 0, 8 * voice);
        body.control(voice, 2, [0x00, 0x81, 0x01, 0x82][usize::from(voice)]);
        let mut start = 8 * QUARTER * u32::from(voice);
        for line in JACQUES.iter().flat_map(|line| [line, line]) {
            for &(key, length) in line.iter() {
                notes.push((start, voice, key, length));
                start += length;
            }
        }
    }
    body.together(notes);
    stream(body)
}

fn song(letters: &[u8], phrases: &[(u32, u32)], order: &[u8], body: Vec<u8>) -> Vec<u8> {
    let entry = |(letter, (from, to)): (&u8, &(u32, u32))| phrase(*letter, *from, *to);
    let mut entries: Vec<Vec<u8>> = letters.iter().zip(phrases).map(entry).collect();
    entries.push([b"SL:", order].concat());
    file(&[score(PHRASES, TEN, &[(b"MspI", entries.join(&b',')), (b"Mtsq", body)])])
}

fn frere_jacques() -> Vec<u8> {
    let mut body = Body::default();
    let mut lines = Vec::new();
    for line in JACQUES {
        let from = body.pause();
        body.melody(0, line);
        lines.push((from, body.pause()));
    }
    song(b"abcd", &lines, b"aabbccdd", body.ended())
}

const DOTTED: u32 = QUARTER + EIGHTH;

/// An American round, line by line; each lasts four dotted quarters.
fn boat() -> [Vec<(u8, u32)>; 4] {
    [
        vec![(60, DOTTED), (60, DOTTED), (60, QUARTER), (62, EIGHTH), (64, DOTTED)],
        vec![(64, QUARTER), (62, EIGHTH), (64, QUARTER), (65, EIGHTH), (67, 2 * DOTTED)],
        [72, 67, 64, 60].map(|key| [(key, EIGHTH); 3]).concat(),
        vec![(67, QUARTER), (65, EIGHTH), (64, QUARTER), (62, EIGHTH), (60, 2 * DOTTED)],
    ]
}

/// The round for singing along, an end mark after each line: where the lines start and stop, and the body.
fn marked_lines() -> (Vec<(u32, u32)>, Vec<u8>) {
    let mut body = Body::default();
    let mut lines = Vec::new();
    for line in boat() {
        let from = body.pause();
        body.melody(0, &line);
        lines.push((from, body.pause()));
        body.mark();
    }
    (lines, body.bytes)
}

fn karaoke() -> Vec<u8> {
    let (lines, body) = marked_lines();
    song(b"abcd", &lines, b"abcdcd", body)
}

fn karaoke_without_points() -> Vec<u8> {
    file(&[score(STREAM, TEN, &[(b"Mtsq", marked_lines().1)])])
}

/// The phrase of `S` is the third line and the fourth, with the mark between them.
fn stopped_order() -> Vec<u8> {
    let (lines, body) = marked_lines();
    let last_two = (lines[2].0, lines[3].1);
    song(b"abS", &[lines[0], lines[1], last_two], b"abSab", body)
}

fn scale_on_four_channels() -> Vec<u8> {
    let mut body = Body::default();
    for channel in 0..4 {
        body.control(channel, 0, 10 + channel);
        body.control(channel, 0xA, 16 + 32 * channel);
    }
    for (place, key) in (0..).zip([60, 62, 64, 65, 67, 69, 71, 72]) {
        body.note(place % 4, key, QUARTER);
    }
    stream(body)
}

fn octave_shifts() -> Vec<u8> {
    let mut body = Body::default();
    for shift in [0x00, 0x01, 0x04, 0x81, 0x84] {
        body.control(0, 2, shift);
        body.note(0, 69, QUARTER);
        body.note(1, 69, QUARTER);
    }
    body.note(0, 37, QUARTER);
    body.control(0, 2, 0x04);
    body.note(0, 84, QUARTER);
    stream(body)
}

fn short_forms() -> Vec<u8> {
    let mut body = Body::default();
    for form in 0..3 {
        for value in [1, 2, 8, 14] {
            body.short(form, form, value);
        }
    }
    for (code, value) in [(1, 0xFF), (3, 0x40), (4, 0x40), (7, 0x7F), (0xA, 0x00), (0xB, 0x64)] {
        body.control(3, code, value);
    }
    body.note(3, 69, QUARTER);
    stream(body)
}

fn exclusives() -> Vec<u8> {
    let mut body = Body::default();
    body.note(0, 60, QUARTER);
    body.event(&[0xFF, 0xF0, 3, 0x43, 0x02, 0xF7]);
    body.note(0, 64, QUARTER);
    body.event(&[0xFF, 0xF0, 7, 0x43, 0x02, 1, 0xF7, 2, 3, 0xF7]);
    body.note(0, 67, HALF);
    let setup = vec![0xFF, 0xF0, 4, 0x43, 0x02, 9, 0xF7];
    file(&[score(STREAM, TEN, &[(b"Mtsu", setup), (b"Mtsq", body.ended())])])
}

fn waves() -> Vec<u8> {
    let mut body = Body::default();
    body.control(0, 7, 90);
    for number in [1, 2, 1, 2, 1, 1, 2] {
        body.wave(0, number, 24);
    }
    body.wave(1, 62, HALF);
    let mut track = vec![0, STREAM, 0, 0, 0x11, 0x11];
    for (id, part) in [(b"Atsq", body.ended()), (b"Awa\x01", vec![0; 6]), (b"Awa\x02", Vec::new())]
    {
        track.extend(chunk(id, &part));
    }
    file(&[chunk(b"ATR\0", &track)])
}

/// In the layout of FFmpeg's muxer: one wave, a NOP when it is over, and zeros up to sixteen bytes, which are two end marks. The wave has 4,000 samples
/// a second, two in a byte, so that it lasts 150 steps of 4 milliseconds.
fn another_makers_file() -> Vec<u8> {
    let mut sequence = vec![0x00, 0x01, 0x80, 0x16, 0x80, 0x16, 0xFF, 0x00];
    sequence.resize(16, 0);
    let wave = [[0x33; 4], [0xBB; 4]].concat().repeat(150);
    let mut track = vec![0, STREAM, 0x10, 0x00, 0x02, 0x02];
    track.extend(chunk(b"Atsq", &sequence));
    track.extend(chunk(b"Awa\x01", &wave));
    let contents = chunk(b"CNTI", &[0, 1, 1, 0, 0]);
    whole_file(&[contents, chunk(b"ATR\0", &track)].concat())
}

fn long_rests() -> Vec<u8> {
    let mut body = Body::default();
    body.note(0, 69, QUARTER);
    body.rest(40_000);
    body.note(0, 72, QUARTER);
    body.rest(16_511 - QUARTER);
    body.note(0, 76, QUARTER);
    body.rest(100_000);
    stream(body)
}

fn phrase_track(order: &[u8]) -> Vec<u8> {
    let mut body = Body::default();
    body.note(0, 69, QUARTER);
    let to = body.pause();
    let seek = [&phrase(b'z', 0, to), order].concat();
    file(&[score(PHRASES, TEN, &[(b"MspI", seek), (b"Mtsq", body.ended())])])
}

fn after_closed_tracks() -> Vec<u8> {
    let mut body = Body::default();
    body.melody(0, &[(67, QUARTER), (64, QUARTER), (60, HALF)]);
    let open = score(STREAM, 0x03, &[(b"Mtsq", body.ended())]);
    file(&[chunk(b"OPDA", b"a leaf"), chunk(b"MTR\x01", &[2, 0, 0]), chunk(b"GTR\0", &[]), open])
}

/// A stream whose body is damaged, by its bytes.
fn damaged(body: Vec<u8>) -> Vec<u8> {
    file(&[score(STREAM, TEN, &[(b"Mtsq", body)])])
}

fn gate_of_zero() -> Vec<u8> {
    damaged(vec![0x00, 0x29, 0x14, 0x10, 0x29, 0x00])
}

/// The ode, whose last note has lost its gate time.
fn cut_short() -> Vec<u8> {
    let mut body = Body::default();
    ode(&mut body);
    body.bytes.pop();
    damaged(body.bytes)
}

/// A line with an event that means nothing between its second note and its third.
fn reserved_event() -> Vec<u8> {
    let mut body = Body::default();
    body.melody(0, &JACQUES[0][..2]);
    body.event(&[0xFF, 0x01]);
    body.melody(0, &JACQUES[0][2..]);
    damaged(body.ended())
}

/// Three long notes; the second byte of the wait before the second note has its top bit set.
fn bad_duration() -> Vec<u8> {
    let mut body = Body::default();
    body.note(0, 60, 2 * HALF);
    let wait = body.bytes.len();
    body.melody(0, &[(64, 2 * HALF), (67, 2 * HALF)]);
    body.bytes[wait + 1] |= 0x80;
    damaged(body.ended())
}

pub fn all() -> Vec<Tune> {
    let tunes: [(&'static str, Vec<u8>); 23] = [
        ("worked", worked_tune()),
        ("ode_to_joy", ode_to_joy()),
        ("second_line", second_line()),
        ("frere_jacques", frere_jacques()),
        ("round_of_four", round_of_four()),
        ("karaoke", karaoke()),
        ("karaoke_without_points", karaoke_without_points()),
        ("stopped_order", stopped_order()),
        ("scale_on_four_channels", scale_on_four_channels()),
        ("octave_shifts", octave_shifts()),
        ("short_forms", short_forms()),
        ("exclusives", exclusives()),
        ("waves", waves()),
        ("another_makers_file", another_makers_file()),
        ("long_rests", long_rests()),
        ("empty_order", phrase_track(b",SL:")),
        ("after_closed_tracks", after_closed_tracks()),
        ("no_order", phrase_track(b"")),
        ("cut_short", cut_short()),
        ("gate_of_zero", gate_of_zero()),
        ("reserved_event", reserved_event()),
        ("bad_duration", bad_duration()),
        ("no_readable_track", file(&[chunk(b"GTR\0", b"pictures")])),
    ];
    tunes.map(|(name, file)| Tune { name, file }).into()
}

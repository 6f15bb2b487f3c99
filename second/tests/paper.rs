//! The paper's own examples.

mod shared;

use second::check_code::check_code;
use second::file::{open, read};
use second::item::{read_sequence, Voice};
use second::listing::listing;
use second::pitch::pitch;
use second::plain::flatten;
use second::play::play;
use second::time_base::TimeBase;
use second::tune::{worked_tune, BODY};
use shared::*;

const LISTING: &str = "step ms ch kind value gate
0 0 0 program 5 0
10 40 0 note 0 20
268 1072 0 note 3 128
300 1200 0 note 0 20
558 2232 0 note 3 128
end 590 2360
";

const PLAIN: [u8; 27] = [
    0x00, 0x00, 0x30, 0x05, 0x0A, 0x29, 0x14, 0x81, 0x02, 0x2C, 0x80, 0x00, 0x20, 0x29, 0x14, 0x81,
    0x02, 0x2C, 0x80, 0x00, 0x20, 0xFF, 0x00, 0x00, 0x00, 0x00, 0x00,
];

#[test]
fn durations() {
    let lengths: [(&[u8], u64); 4] =
        [(&[0x7F], 127), (&[0x80, 0x00], 128), (&[0x81, 0x02], 258), (&[0xFF, 0x7F], 16_511)];
    for (bytes, value) in lengths {
        let body = [bytes, &[0xFF, 0x00]].concat();
        assert_eq!(read_sequence(&body, Voice::Score).unwrap().time, value);
    }
    assert_eq!(outcome(read_sequence(&[0xFF, 0x80, 0xFF, 0x00], Voice::Score)), (23, 1));
}

#[test]
fn pitches() {
    assert_eq!(pitch(0x29, 0), Ok(0));
    assert_eq!(pitch(0x01, 0), Ok(-32));
    assert_eq!(pitch(0x3C, 0), Ok(15));
    assert_eq!(pitch(0xFC, 0x04), Ok(63));
    assert_eq!(pitch(0xC1, 0x84), Ok(-80));
    for (event, shift) in [(0x00, 0), (0xFF, 0), (0x2D, 0), (0x30, 0), (0x29, 5), (0x29, 0x80)] {
        assert_eq!(outcome(pitch(event, shift)), (19, 0));
    }
    assert_eq!(outcome(pitch(0x29, 0x85)), (19, 0));
}

#[test]
fn time_bases() {
    let known: Vec<(u8, u64)> = (0..=255)
        .filter_map(|code| Some((code, TimeBase::from_code(code)?.milliseconds)))
        .collect();
    let expected = [(0, 1), (1, 2), (2, 4), (3, 5), (0x10, 10), (0x11, 20), (0x12, 40), (0x13, 50)];
    assert_eq!(known, expected);
}

#[test]
fn check_code_sample() {
    assert_eq!(check_code(b"123456789"), 0xD64E);
    assert_eq!(check_code(b""), 0);
}

#[test]
fn small_bodies() {
    let refused = read_sequence(&[0; 3], Voice::Score).unwrap_err();
    assert_eq!((refused.number(), refused.place), (23, 2));
    let file = score(STREAM, &[(b"Mtsq", &[0; 4])]);
    assert_eq!(played(&file), (vec![], 0));
    assert_eq!(plain(&file), [0; 4]);
}

#[test]
fn worked_tune_rows() {
    let tune = worked_tune();
    assert_eq!(tune.len(), 102);
    let melody = read(&tune, 102, 5).unwrap();
    let rows: Vec<_> =
        melody.rows.iter().map(|row| (&row.id[..], row.place, row.size, row.container)).collect();
    let expected: [(&[u8], usize, usize, usize); 5] = [
        (b"MMMD", 0, 94, 0),
        (b"CNTI", 8, 5, 0),
        (b"MTR\0", 21, 71, 0),
        (b"MspI", 35, 30, 2),
        (b"Mtsq", 73, 19, 2),
    ];
    assert_eq!(rows, expected);
    assert!(melody.verdict);
    assert_eq!(melody.code.to_be_bytes(), tune[100..]);
    assert_eq!(outcome(read(&tune, 102, 4)), (15, 0));
}

#[test]
fn worked_tune_played() {
    let rows = played(&worked_tune());
    let program = 3 << 27 | 5 << 17;
    let first_note = 1 << 27 | 0x29 << 17 | 20 << 2;
    let second_note = 1 << 27 | 0x2C << 17 | 128 << 2;
    let expected = vec![
        (0, program),
        (10, first_note),
        (268, second_note),
        (300, first_note),
        (558, second_note),
    ];
    assert_eq!(rows, (expected, 590));
    assert_eq!(outcome(play(&worked_tune(), 102, 2, 4)), (15, 21));
}

#[test]
fn worked_tune_plain() {
    assert_eq!(plain(&worked_tune()), PLAIN);
    assert_eq!(outcome(flatten(&worked_tune(), 102, 2, 26)), (18, 21));
    assert_eq!(flatten(&worked_tune(), 102, 2, 27).unwrap(), PLAIN);
}

#[test]
fn worked_tune_listing() {
    assert_eq!(listing(&worked_tune()).unwrap(), LISTING);
}

#[test]
fn wrong_check_code_is_no_refusal() {
    let mut tune = worked_tune();
    tune[100] ^= 1;
    let melody = open(&tune, 102).unwrap();
    assert!(!melody.verdict);
    assert_eq!(listing(&tune).unwrap(), LISTING);
}

/// `00 30 00` before an end mark: the first four zeros in a row stand one
/// byte before the mark.
#[test]
fn error_of_searching_zeros() {
    let body = [0x00, 0x00, 0x30, 0x00, 0x00, 0x00, 0x00, 0x00];
    let file = score(STREAM, &[(b"Mtsq", &body)]);
    assert_eq!(played(&file), (vec![(0, 3 << 27)], 0));
    let track = &open(&file, file.len() as u32).unwrap().tracks[0].1;
    assert_eq!(track.sequence.addresses, [0, 4, 8]);
}

/// `PA` runs up to step 10, where the note sounds that stands before its stop.
#[test]
fn error_of_choosing_by_address() {
    let seek = entries(&[phrase(b'A', 0, 7), b"SL:A".to_vec()]);
    let file = score(PHRASES, &[(b"MspI", &seek), (b"Mtsq", &BODY)]);
    assert_eq!(played(&file), (vec![(0, 3 << 27 | 5 << 17)], 10));
}

#[test]
fn error_of_taking_body_length_for_no_stop() {
    let body = [0x0A, 0x29, 0x14];
    let without = score(STREAM, &[(b"Mtsq", &body)]);
    assert_eq!(steps(&without), (vec![10], 10));
    let with = score(STREAM, &[(b"MspI", &point(b"sp", 3)), (b"Mtsq", &body)]);
    assert_eq!(steps(&with), (vec![], 10));
}

#[test]
fn word_of_exclusive() {
    let body = [0x00, 0xFF, 0x00, 0x05, 0xFF, 0xF0, 0x03, 0x43, 0x02, 0xF7];
    let file = score(STREAM, &[(b"Mtsq", &body)]);
    assert_eq!(played(&file), (vec![(5, 14 << 27 | 4 << 11 | 3 << 3)], 5));
}

#[test]
fn words_of_every_kind() {
    let controls = [0x30, 0x71, 0xB2, 0xF3, 0x34, 0x37, 0x3A, 0x3B];
    let kinds = [3, 4, 5, 6, 7, 8, 9, 10];
    for (control, kind) in controls.into_iter().zip(kinds) {
        let file = score(STREAM, &[(b"Mtsq", &[1, 0x00, control, 2])]);
        let channel = u32::from(control >> 6);
        assert_eq!(played(&file).0, [(1, kind << 27 | channel << 25 | 2 << 17)]);
    }
    for (control, kind) in [(0xC1, 13), (0x5E, 12), (0x28, 11)] {
        let file = score(STREAM, &[(b"Mtsq", &[1, 0x00, control])]);
        let (channel, bits) = (u32::from(control >> 6), u32::from(control & 15));
        assert_eq!(played(&file).0, [(1, kind << 27 | channel << 25 | bits << 17)]);
    }
    let file = pcm(STREAM, &[(b"Awa\x01", &[]), (b"Atsq", &[1, 0xFE, 0xFF, 0x7F])]);
    assert_eq!(played(&file).0, [(1, 2 << 27 | 3 << 25 | 62 << 17 | 16_511 << 2)]);
}

fn accepts(voice: Voice, body: &[u8]) -> bool {
    read_sequence(body, voice).is_ok()
}

#[test]
fn every_first_byte_of_an_event() {
    for first in 1..=254_u8 {
        let note = (1..=12).contains(&(first % 16));
        assert_eq!(accepts(Voice::Score, &[0, first, 1]), note, "{first:x}");
        let wave = (1..=62).contains(&(first % 64));
        assert_eq!(accepts(Voice::Pcm, &[0, first, 1]), wave, "{first:x}");
    }
    for second in 0..=255_u8 {
        let event = [0, 0xFF, second, 3, 1, 1, 0xF7];
        assert_eq!(accepts(Voice::Score, &event), second == 0xF0, "{second:x}");
        assert_eq!(accepts(Voice::Pcm, &event[..3]), second == 0x00, "{second:x}");
    }
}

#[test]
fn every_control_and_value() {
    for second in 0..=255_u8 {
        let (form, bits) = (second / 16 % 4, second % 16);
        let short = form < 3 && (1..=14).contains(&bits);
        assert_eq!(accepts(Voice::Score, &[1, 0, second]), short, "{second:x}");
        assert_eq!(accepts(Voice::Pcm, &[1, 0, second]), short && form < 2, "{second:x}");
        for value in 0..=255_u8 {
            let good = match bits {
                _ if form < 3 => continue,
                0x1 => true,
                0x2 => value <= 4 || (0x81..=0x84).contains(&value),
                0x0 | 0x3 | 0x4 | 0x7 | 0xA | 0xB => value < 0x80,
                _ => false,
            };
            let in_pcm = good && bits > 3;
            assert_eq!(accepts(Voice::Score, &[1, 0, second, value]), good);
            assert_eq!(accepts(Voice::Pcm, &[1, 0, second, value]), in_pcm);
        }
    }
}

#[test]
fn every_size_of_an_exclusive() {
    for size in 0..=255_u8 {
        let mut body = vec![0, 0xFF, 0xF0, size];
        body.extend(vec![0xF7; usize::from(size)]);
        assert_eq!(accepts(Voice::Score, &body), size >= 3, "{size}");
        body.pop();
        assert!(!accepts(Voice::Score, &body), "{size}");
    }
}

/// The three tables as rules: steps of 8, with the bends of modulation's last
/// three and expression's first.
#[test]
fn short_forms_in_standard_values() {
    let modulation = |bits: u8| [0x60, 0x70, 0x7F].get(bits as usize - 12).copied();
    for bits in 1..=14_u8 {
        let modulation = if bits < 12 { 8 * (bits - 1) } else { modulation(bits).unwrap() };
        let pitch_bend = 8 * bits;
        let expression = if bits == 1 { 0 } else { 0x1F + 8 * (bits - 2) };
        let body = [0x00, 0x00, 0x20 | bits, 0x00, 0x00, 0x10 | bits, 0x00, 0x00, bits];
        let file = score(STREAM, &[(b"Mtsq", &body)]);
        let expected = format!(
            "step ms ch kind value gate\n0 0 0 modulation {modulation} 0\n\
             0 0 0 pitchbend {pitch_bend} 0\n0 0 0 expression {expression} 0\nend 0 0\n"
        );
        assert_eq!(listing(&file).unwrap(), expected);
    }
}

#[test]
fn largest_file() {
    let file = |length: usize| {
        let track = score_track(STREAM, &[(b"Mtsq", &BODY)]);
        let filling = length - 10 - 13 - track.len() - 8;
        file_of(&[track, second::frame::chunk(b"OPDA", &vec![0; filling])])
    };
    assert_eq!(file(65_536).len(), 65_536);
    assert_eq!(refusal(&file(65_536)), (0, 0));
    assert_eq!(refusal(&file(65_537)), (1, 0));
    assert!(listing(&file(65_536)).is_ok());
}

//! The paper's worked tune as a whole file.

use crate::frame::{chunk, whole_file};

pub const BODY: [u8; 19] = [
    0x00, 0x00, 0x30, 0x05, 0x0A, 0x29, 0x14, 0x81, 0x02, 0x2C, 0x80, 0x00, 0x20, 0xFF, 0x00, 0x00,
    0x00, 0x00, 0x00,
];

const SEEK: &[u8] = b"PA:\0\0\0\0\0\0\0\x07,PS:\0\0\0\x07\0\0\0\x0F,SL:ASS";

/// Phrases, D and G both code 02, no channel status.
const FIXED: [u8; 6] = [0, 1, 2, 2, 0, 0];

pub fn worked_tune() -> Vec<u8> {
    let seek = chunk(b"MspI", SEEK);
    let sequence = chunk(b"Mtsq", &BODY);
    let track = chunk(b"MTR\0", &[&FIXED[..], &seek, &sequence].concat());
    whole_file(&[chunk(b"CNTI", &[0; 5]), track].concat())
}

//! Chunks put together, and whole files with their check code.

use crate::check_code::check_code;

/// The bytes of a file's header and of its check code.
pub const FRAME_BYTES: usize = 10;

pub fn chunk(id: &[u8; 4], body: &[u8]) -> Vec<u8> {
    let size = (body.len() as u32).to_be_bytes();
    [&id[..], &size[..], body].concat()
}

/// A file of that chunk list, with the right check code.
pub fn whole_file(list: &[u8]) -> Vec<u8> {
    let mut file = chunk(b"MMMD", &[list, &[0, 0]].concat());
    let before = file.len() - 2;
    let code = check_code(&file[..before]).to_be_bytes();
    file[before..].copy_from_slice(&code);
    file
}

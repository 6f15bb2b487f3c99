//! The eight time bases: how many milliseconds a step lasts.

#[derive(Clone, Copy, Debug, PartialEq, Eq)]
pub struct TimeBase {
    pub milliseconds: u64,
}

impl TimeBase {
    pub fn from_code(code: u8) -> Option<TimeBase> {
        let milliseconds = match code {
            0x00 => 1,
            0x01 => 2,
            0x02 => 4,
            0x03 => 5,
            0x10 => 10,
            0x11 => 20,
            0x12 => 40,
            0x13 => 50,
            _ => return None,
        };
        Some(TimeBase { milliseconds })
    }
}

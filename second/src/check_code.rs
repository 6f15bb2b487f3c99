//! The check code, bit by bit: the remainder by 0x11021, started with all
//! ones, most significant bit first, complemented at the end.

pub fn check_code(bytes: &[u8]) -> u16 {
    let mut remainder = 0xFFFF;
    for byte in bytes {
        for bit in (0..8).rev() {
            let incoming = (byte >> bit) & 1 == 1;
            let outgoing = remainder & 0x8000 != 0;
            remainder <<= 1;
            if incoming != outgoing {
                remainder ^= 0x1021;
            }
        }
    }
    !remainder
}

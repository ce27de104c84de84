//! What document 01 says of codes: which may skip, which are none. The interpreter is held to it.

/// The codes that may skip.
pub fn can_skip(code: u8) -> bool {
    matches!(code,
        0x03..=0x05 | 0x08 | 0x09 | 0x0C | 0x0D | 0x0F | 0x13 | 0x16 | 0x17 | 0x1D | 0x1F
        | 0x20..=0x27 | 0x2C..=0x2F | 0x33..=0x37 | 0x3C..=0x3F | 0x49 | 0x50..=0x5F)
}

/// "1C and 45 are no instructions".
pub fn is_none(code: u8) -> bool {
    matches!(code, 0x1C | 0x45)
}

/// "RTS, then always a skip".
pub fn always_skips(code: u8) -> bool {
    code == 0x49
}

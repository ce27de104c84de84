//! "State image, 81 bytes", and its version 2: "Images become version 2, 82 bytes, the count last".

use crate::machine::State;
use crate::numbers::{
    COUNT_LOST, FIELD, FINISHED, IMAGE_LENGTH, IMAGE_MARK, IMAGE_VERSION, SHORT_BUFFER,
};
use crate::sheet::Sheet;

/// "0-2 the mark `U43`; 3-4 version 1".
const MARK: [u8; 3] = *b"U43";

/// The versions of an image.
#[derive(Clone, Copy, PartialEq, Eq, Debug)]
pub enum Version {
    One,
    Two,
}

impl Version {
    pub const BOTH: [Version; 2] = [Version::One, Version::Two];

    /// Its number, as bytes 3 and 4 have it.
    pub fn number(self) -> u16 {
        match self {
            Version::One => 1,
            Version::Two => 2,
        }
    }

    /// Bytes of an image.
    pub fn length(self) -> usize {
        match self {
            Version::One => 81,
            Version::Two => 82,
        }
    }
}

/// Writes the image of a state in the version wanted: "save 34, 1 and then writes 81 bytes only", of version 2
/// one more; "54, in a save between 34 and 1, a version 1 image wanted while the count isn't 0". A refused save
/// writes nothing. R-11: 71 is "before all else".
pub fn save(version: Version, state: &State, buffer: &mut [u8], sheet: Sheet) -> u8 {
    let chip = match sheet.chip() {
        Ok(chip) => chip,
        Err(number) => return number,
    };
    if !state.is_valid(&chip) {
        return FIELD;
    }
    if version == Version::One && state.count != 0 {
        return COUNT_LOST;
    }
    if buffer.len() < version.length() {
        return SHORT_BUFFER;
    }
    buffer[0..3].copy_from_slice(&MARK);
    buffer[3..5].copy_from_slice(&version.number().to_be_bytes());
    buffer[5..7].copy_from_slice(&state.pc.to_be_bytes());
    for (place, address) in buffer[7..13].chunks_exact_mut(2).zip(state.stack) {
        place.copy_from_slice(&address.to_be_bytes());
    }
    buffer[13] = state.dph << 4 | state.dpl;
    buffer[14] = state.acc;
    buffer[15] = state.carry
        | state.saved << 1
        | state.int << 2
        | state.inte << 3
        | state.tm << 4
        | state.level << 5;
    buffer[16] = state.mark;
    buffer[17] = state.owed;
    buffer[18] = state.register;
    buffer[19] = state.counter;
    buffer[20..27].copy_from_slice(&state.ports);
    // "even column in the high half"
    for (place, pair) in buffer[27..75].iter_mut().zip(state.ram.chunks_exact(2)) {
        *place = pair[0] << 4 | pair[1];
    }
    buffer[75..81].copy_from_slice(&state.cycle.to_be_bytes()[2..]);
    if version == Version::Two {
        buffer[81] = state.count;
    }
    FINISHED
}

/// Reads an image: "restore 31 to 34"; "a refused run answers the state given, a refused restore the
/// fresh state". R-11: 71 is "before all else".
pub fn restore(bytes: &[u8], sheet: Sheet) -> (u8, State) {
    match decode(bytes, sheet) {
        Ok(state) => (FINISHED, state),
        Err(number) => (number, State::fresh()),
    }
}

fn decode(bytes: &[u8], sheet: Sheet) -> Result<State, u8> {
    let chip = sheet.chip()?;
    // "31 is now a length of neither 81 nor 82, 33 a version that doesn't go with the length"
    let of_length = |version: &Version| version.length() == bytes.len();
    let Some(version) = Version::BOTH.into_iter().find(of_length) else {
        return Err(IMAGE_LENGTH);
    };
    if bytes[0..3] != MARK {
        return Err(IMAGE_MARK);
    }
    if bytes[3..5] != version.number().to_be_bytes() {
        return Err(IMAGE_VERSION);
    }
    let flags = bytes[15];
    if flags > 63 {
        return Err(FIELD);
    }
    let word = |at: usize| u16::from(bytes[at]) << 8 | u16::from(bytes[at + 1]);
    let mut state = State {
        pc: word(5),
        stack: [word(7), word(9), word(11)],
        acc: bytes[14],
        carry: flags & 1,
        saved: flags >> 1 & 1,
        dph: bytes[13] >> 4,
        dpl: bytes[13] & 15,
        int: flags >> 2 & 1,
        inte: flags >> 3 & 1,
        tm: flags >> 4 & 1,
        level: flags >> 5,
        mark: bytes[16],
        owed: bytes[17],
        register: bytes[18],
        counter: bytes[19],
        ports: [0; 7],
        ram: [0; 96],
        cycle: bytes[75..81]
            .iter()
            .fold(0, |cycle, &byte| cycle << 8 | u64::from(byte)),
        // "Version 1 is still restored, with count 0".
        count: match version {
            Version::One => 0,
            Version::Two => bytes[81],
        },
    };
    state.ports.copy_from_slice(&bytes[20..27]);
    for (pair, &byte) in state.ram.chunks_exact_mut(2).zip(&bytes[27..75]) {
        pair[0] = byte >> 4;
        pair[1] = byte & 15;
    }
    if state.is_valid(&chip) {
        Ok(state)
    } else {
        Err(FIELD)
    }
}

//! "Numbers, by whose hand": the refusals and the stops.

/// A run that finished its n cycles, or a call that was carried out.
pub const FINISHED: u8 = 0;

// The caller.
/// Refusal: image buffer under the version's length, 81 or 82 bytes; of request R-3's call, a report under 32; of R-12's, under 8 for k.
pub const SHORT_BUFFER: u8 = 1;
/// Refusal: cycle number + n above 2^48 - 1.
pub const CYCLE_LIMIT: u8 = 2;
/// Stop: the log lacks the 8 or 16 bytes of the next instruction, or the 8 of a reset.
pub const LOG_FULL: u8 = 3;
/// Refusal: the store (request R-7) or an image is malformed, or the name isn't eight bytes or is zero.
pub const STORE_MALFORMED: u8 = 51;
/// Refusal: no such name to recall.
pub const NAME_UNKNOWN: u8 = 52;
/// Refusal: no unused entry for a new name.
pub const STORE_FULL: u8 = 53;
/// Refusal: a version 1 image wanted while the count isn't 0 (request R-8).
pub const COUNT_LOST: u8 = 54;
/// Refusal: more than sixteen panels (request R-9).
pub const MANY_PANELS: u8 = 61;
/// Refusal: the lengths of a kind together exceed their buffer.
pub const BUFFER_LENGTHS: u8 = 62;
/// Refusal: the bytes of a bank are no multiple of an entry's.
pub const BANK_LENGTH: u8 = 63;
/// Refusal: the log is shorter than 16n bytes (request R-12).
pub const LOG_SHORT: u8 = 81;
/// Refusal: the full run finishes.
pub const NOTHING_STOPS: u8 = 82;

// Whoever wrote the schedule.
/// Refusal: length no multiple of 10.
pub const SCHEDULE_LENGTH: u8 = 11;
/// Refusal: over 40,960 bytes.
pub const SCHEDULE_LONG: u8 = 12;
/// Refusal: bad INT or last byte, which is RES.
pub const RECORD_BYTES: u8 = 13;
/// Refusal: cycle not above the last.
pub const RECORD_CYCLE: u8 = 14;

// Whoever read the ROM.
/// Refusal: not 2,000 bytes, or the sheet's length.
pub const ROM_LENGTH: u8 = 21;
/// Stop: a byte above 7CF is needed, or above the sheet's last address.
pub const ABOVE_ROM: u8 = 22;
/// Stop: code 1C or 45 due.
pub const NO_INSTRUCTION: u8 = 23;

// Whoever kept the image.
/// Refusal: length neither 81 nor 82.
pub const IMAGE_LENGTH: u8 = 31;
/// Refusal: bytes 0 to 2.
pub const IMAGE_MARK: u8 = 32;
/// Refusal: a version that doesn't go with the length.
pub const IMAGE_VERSION: u8 = 33;
/// Refusal: a field, also in a state given as a value; or something that the sheet doesn't have.
pub const FIELD: u8 = 34;

// Whoever kept the log (request R-1), and what is carried over to it.
/// Refusal: the log's length is no multiple of 8, or something carried breaks its rule.
pub const CARRIED: u8 = 41;
/// Refusal: a record's port, value or cycle.
pub const LOG_RECORD: u8 = 42;

// Whoever asked for the load (request R-4).
/// Refusal: more than 4,096 records.
pub const MANY_RECORDS: u8 = 43;
/// Refusal: the buffer is shorter than the output.
pub const BUFFER_SHORT: u8 = 44;

// Whoever wrote the sheet (request R-11).
/// Refusal: one of its three numbers is outside its limits.
pub const SHEET: u8 = 71;

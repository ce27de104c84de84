//! Request R-4, "A load anyone can make again": ROMs and schedules from a seed.

use crate::lent::ROM;
use crate::numbers::{BUFFER_SHORT, FINISHED, MANY_RECORDS};

/// "at most 4,096"
pub const MOST: u64 = 4_096;

/// "The generator takes a 32-bit s to 1664525 times s + 1013904223 modulo 2^32, and each byte is the
/// top eight bits of the new s."
struct Generator {
    s: u32,
}

impl Generator {
    fn byte(&mut self) -> u8 {
        self.s = self.s.wrapping_mul(1_664_525).wrapping_add(1_013_904_223);
        self.s.to_be_bytes()[0]
    }
}

/// "A ROM is 2,000 such bytes."
pub fn rom(seed: u32) -> Vec<u8> {
    let mut generator = Generator { s: seed };
    (0..ROM).map(|_| generator.byte()).collect()
}

/// "draws per record one byte for the gap (plus 1, added to the last cycle, starting from 0), two for
/// the ports, and one whose lowest bit is INT"
pub fn schedule(seed: u32, records: u64) -> Vec<u8> {
    let mut generator = Generator { s: seed };
    let mut cycle = 0u64;
    let mut schedule = Vec::new();
    for _ in 0..records {
        cycle += u64::from(generator.byte()) + 1;
        schedule.extend(&cycle.to_be_bytes()[2..]);
        schedule.extend([generator.byte(), generator.byte(), generator.byte() & 1, 0]);
    }
    schedule
}

/// "44 the buffer is shorter than 2,000 bytes for a ROM"
pub fn make_rom(seed: u32, buffer: &mut [u8]) -> u8 {
    put(&rom(seed), buffer)
}

/// "Errors, which write nothing: 43 m above 4,096; then 44 the buffer is shorter than .. 10m"
pub fn make_schedule(seed: u32, records: u64, buffer: &mut [u8]) -> u8 {
    if records > MOST {
        return MANY_RECORDS;
    }
    put(&schedule(seed, records), buffer)
}

/// "Buffer bytes past the output are kept."
fn put(bytes: &[u8], buffer: &mut [u8]) -> u8 {
    match buffer.get_mut(..bytes.len()) {
        Some(front) => {
            front.copy_from_slice(bytes);
            FINISHED
        }
        None => BUFFER_SHORT,
    }
}

/// A line of text that program `load` is given, and what it asks for: `rom SEED` or `schedule SEED M`,
/// the numbers decimal, of 1 to 18 digits; SEED has 32 bits. One line end may stand behind it.
pub fn load(line: &[u8]) -> Option<Result<Vec<u8>, u8>> {
    let line = line.strip_suffix(b"\n").unwrap_or(line);
    let text = std::str::from_utf8(line).ok()?;
    let words: Vec<&str> = text.split(' ').collect();
    match words.as_slice() {
        ["rom", seed] => Some(Ok(rom(seed_of(seed)?))),
        ["schedule", seed, records] => {
            let (seed, records) = (seed_of(seed)?, number(records)?);
            Some(if records > MOST {
                Err(MANY_RECORDS)
            } else {
                Ok(schedule(seed, records))
            })
        }
        _ => None,
    }
}

fn number(word: &str) -> Option<u64> {
    let digits = (1..=18).contains(&word.len()) && word.bytes().all(|byte| byte.is_ascii_digit());
    digits.then(|| word.parse().expect("18 digits fit 64 bits"))
}

fn seed_of(word: &str) -> Option<u32> {
    number(word)?.try_into().ok()
}

#[cfg(test)]
mod tests {
    use super::*;
    use crate::schedule::refusal;

    /// Reckoned by hand: from 0 the new s is 1013904223, whose top eight bits are 60; then 1196435762,
    /// 3519870697, 2868466484, 1649599747.
    #[test]
    fn first_bytes() {
        assert_eq!(rom(0)[..5], [60, 71, 209, 170, 98]);
        assert_eq!(schedule(0, 1), [0, 0, 0, 0, 0, 61, 71, 209, 0, 0]);
    }

    #[test]
    fn a_schedule_begins_the_next_one_and_is_accepted() {
        let longest = schedule(7, MOST);
        assert_eq!(longest.len(), 40_960);
        for records in [0, 1, 2, 100, 4_095] {
            assert!(longest.starts_with(&schedule(7, records)));
        }
        for seed in 0..1_000 {
            assert_eq!(refusal(&schedule(seed, MOST)), FINISHED);
        }
    }
}

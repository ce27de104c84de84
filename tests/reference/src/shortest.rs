//! Request R-12, "The shortest schedule that still stops". Every k is tried from the beginning: of k and k + 1 records either may stop where
//! the other doesn't.

use crate::call::panel;
use crate::machine::State;
use crate::numbers::{FINISHED, LOG_SHORT, NOTHING_STOPS, SHORT_BUFFER};
use crate::runners::{admit, run, Runner};
use crate::schedule::RECORD;
use crate::sheet::Sheet;

/// "Each trial is lent a log of 16n bytes".
pub const CYCLE_LOG: u64 = 16;

/// The bytes of k where a buffer is lent for it.
pub const FOUND: usize = 8;

/// "the answer is k with that number": the number, and k. "With any of them k is 0."
pub fn shortest(
    rom: &[u8],
    schedule: &[u8],
    state: &State,
    n: u64,
    log: &mut [u8],
    sheet: Sheet,
) -> (u8, usize) {
    match found(rom, schedule, state, n, log, sheet) {
        Ok(answer) => answer,
        Err(number) => (number, 0),
    }
}

fn found(
    rom: &[u8],
    schedule: &[u8],
    state: &State,
    n: u64,
    log: &mut [u8],
    sheet: Sheet,
) -> Result<(u8, usize), u8> {
    // "after the run's own refusals, 81 the log is shorter than that": n is below 2^48 by then.
    admit(rom, schedule, state, n, sheet)?;
    let room = usize::try_from(CYCLE_LOG * n).map_err(|_| LOG_SHORT)?;
    let log = log.get_mut(..room).ok_or(LOG_SHORT)?;
    // "the plain run with only the first k records"
    let mut trial = |k: usize| {
        let kept = &schedule[..RECORD * k];
        run(Runner::Plain, rom, kept, state, log, n, sheet).number
    };
    let all = schedule.len() / RECORD;
    let number = trial(all);
    // "82 the full run finishes"
    if number == FINISHED {
        return Err(NOTHING_STOPS);
    }
    // "the smallest k such that the plain run with only the first k records stops with the same number as with all of
    // them"
    let k = (0..all).find(|&k| trial(k) == number).unwrap_or(all);
    Ok((number, k))
}

/// The same for C, which gives an image and a buffer for k, 8 bytes, big-endian: a buffer under 8 bytes is 1, before all else, and isn't
/// written; bytes past the 8 stay. The image's numbers come before the run's, as in R-3's call, and the image stays.
#[allow(clippy::too_many_arguments)]
pub fn shortest_of_image(
    image: &[u8],
    rom: &[u8],
    schedule: &[u8],
    n: u64,
    log: &mut [u8],
    found: &mut [u8],
    sheet: Sheet,
) -> u8 {
    let Some(place) = found.get_mut(..FOUND) else {
        return SHORT_BUFFER;
    };
    let (number, k) = match panel(image, sheet) {
        Ok(state) => shortest(rom, schedule, &state, n, log, sheet),
        Err(number) => (number, 0),
    };
    place.copy_from_slice(&(k as u64).to_be_bytes());
    number
}

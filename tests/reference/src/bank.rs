//! Request R-9, "A bank of panels": up to sixteen panels that share the cycles of a round; and the same as bytes, for C.

use crate::image::{restore, save, Version};
use crate::machine::State;
use crate::numbers::{BANK_LENGTH, BUFFER_LENGTHS, FINISHED, MANY_PANELS, SHEET};
use crate::runners::{run, Answer, Runner};
use crate::sheet::Sheet;

/// "up to sixteen landings"
pub const MOST: usize = 16;

/// For C: image, wish, three lengths, four counts and the number.
pub const ENTRY: usize = IMAGE + 8 * NUMBERS + 1;
const IMAGE: usize = 82;
const NUMBERS: usize = 8;

/// "Each has its ROM, schedule, log and wished cycles", by "lengths kept with each panel"; and what its last run answered.
#[derive(Clone, PartialEq, Eq, Debug)]
pub struct Panel {
    pub state: State,
    pub wish: u64,
    /// Bytes of its ROM, schedule and log.
    pub lengths: [u64; 3],
    pub counts: Counts,
    pub number: u8,
}

/// Cycles, instructions, log bytes and steps of a run.
#[derive(Clone, Copy, PartialEq, Eq, Debug, Default)]
pub struct Counts {
    pub cycles: u64,
    pub begun: u64,
    pub written: u64,
    pub steps: u64,
}

impl Counts {
    fn of(answer: &Answer) -> Counts {
        Counts {
            cycles: answer.cycles,
            begun: answer.begun,
            written: answer.written as u64,
            steps: answer.steps,
        }
    }
}

/// The cycles that each wish is granted of T.
pub fn grants(t: u64, wishes: &[u64]) -> Vec<u64> {
    if wishes.is_empty() {
        return Vec::new();
    }
    // "With m panels, each is first granted the smaller of its wish and T divided by m, rounded down."
    let share = t / wishes.len() as u64;
    let mut grants: Vec<u64> = wishes.iter().map(|&wish| wish.min(share)).collect();
    // "What is left goes to unmet wishes in order of the row."
    let mut left = t - grants.iter().sum::<u64>();
    for (grant, &wish) in grants.iter_mut().zip(wishes) {
        let more = (wish - *grant).min(left);
        *grant += more;
        left -= more;
    }
    grants
}

/// A panel in either form.
trait Kept {
    fn wish(&self) -> u64;

    fn lengths(&self) -> [u64; 3];

    /// "its own timer-skipping run for its grant"
    fn go(&mut self, rom: &[u8], schedule: &[u8], log: &mut [u8], n: u64, sheet: Sheet);
}

impl Kept for Panel {
    fn wish(&self) -> u64 {
        self.wish
    }

    fn lengths(&self) -> [u64; 3] {
        self.lengths
    }

    fn go(&mut self, rom: &[u8], schedule: &[u8], log: &mut [u8], n: u64, sheet: Sheet) {
        let answer = run(Runner::Skipping, rom, schedule, &self.state, log, n, sheet);
        self.counts = Counts::of(&answer);
        self.number = answer.number;
        self.state = answer.state;
    }
}

/// An entry of a bank for C.
struct Entry<'a>(&'a mut [u8]);

impl Entry<'_> {
    fn number_at(&self, place: usize) -> u64 {
        let bytes = &self.0[IMAGE + 8 * place..][..8];
        bytes.iter().fold(0, |n, &byte| n << 8 | u64::from(byte))
    }

    /// What its run answered.
    fn put(&mut self, counts: Counts, number: u8) {
        let counts = [counts.cycles, counts.begun, counts.written, counts.steps];
        for (place, count) in (4..).zip(counts) {
            self.0[IMAGE + 8 * place..][..8].copy_from_slice(&count.to_be_bytes());
        }
        self.0[ENTRY - 1] = number;
    }
}

impl Kept for Entry<'_> {
    fn wish(&self) -> u64 {
        self.number_at(0)
    }

    fn lengths(&self) -> [u64; 3] {
        [1, 2, 3].map(|place| self.number_at(place))
    }

    /// As R-3's call does it: "image refusals come first, then the run's. A refusal leaves the image".
    fn go(&mut self, rom: &[u8], schedule: &[u8], log: &mut [u8], n: u64, sheet: Sheet) {
        let (number, state) = restore(&self.0[..IMAGE], sheet);
        if number != FINISHED {
            self.put(Counts::default(), number);
            return;
        }
        let answer = run(Runner::Skipping, rom, schedule, &state, log, n, sheet);
        if !answer.refused {
            save(Version::Two, &answer.state, &mut self.0[..IMAGE], sheet);
        }
        self.put(Counts::of(&answer), answer.number);
    }
}

/// The three lent buffers.
struct Buffers<'a> {
    roms: &'a [u8],
    schedules: &'a [u8],
    logs: &'a mut [u8],
}

/// A round of T cycles for all: 71, 61, 62, "which change nothing".
pub fn round(
    bank: &mut [Panel],
    roms: &[u8],
    schedules: &[u8],
    logs: &mut [u8],
    t: u64,
    sheet: Sheet,
) -> u8 {
    let buffers = Buffers {
        roms,
        schedules,
        logs,
    };
    match judged(bank, &buffers, sheet) {
        Ok(()) => served(bank, buffers, t, sheet),
        Err(number) => number,
    }
}

/// The same on the bytes of C; behind the others 63, a length that is no multiple of an entry's. Up to there the bank is
/// its whole entries.
pub fn round_bytes(
    bank: &mut [u8],
    roms: &[u8],
    schedules: &[u8],
    logs: &mut [u8],
    t: u64,
    sheet: Sheet,
) -> u8 {
    let torn = !bank.len().is_multiple_of(ENTRY);
    let mut entries: Vec<Entry> = bank.chunks_exact_mut(ENTRY).map(Entry).collect();
    let buffers = Buffers {
        roms,
        schedules,
        logs,
    };
    match judged(&entries, &buffers, sheet) {
        Ok(()) if torn => BANK_LENGTH,
        Ok(()) => served(&mut entries, buffers, t, sheet),
        Err(number) => number,
    }
}

/// "61 more than sixteen panels; then 62 the lengths of a kind together exceed their buffer"; R-11: 71 is "before all else".
fn judged<P: Kept>(panels: &[P], buffers: &Buffers, sheet: Sheet) -> Result<(), u8> {
    if !sheet.is_legal() {
        return Err(SHEET);
    }
    if panels.len() > MOST {
        return Err(MANY_PANELS);
    }
    let there = [
        buffers.roms.len(),
        buffers.schedules.len(),
        buffers.logs.len(),
    ];
    for (kind, length) in there.into_iter().enumerate() {
        // Sixteen numbers of 64 bits don't wrap around in 128.
        let together: u128 = panels.iter().map(|p| u128::from(p.lengths()[kind])).sum();
        if together > length as u128 {
            return Err(BUFFER_LENGTHS);
        }
    }
    Ok(())
}

/// Each panel's run, on parts that stand "end to end in row order". "One panel's stop or refusal doesn't hold up the rest, and
/// its unused grant lapses."
fn served<P: Kept>(panels: &mut [P], buffers: Buffers, t: u64, sheet: Sheet) -> u8 {
    let wishes: Vec<u64> = panels.iter().map(P::wish).collect();
    let Buffers {
        mut roms,
        mut schedules,
        mut logs,
    } = buffers;
    for (panel, n) in panels.iter_mut().zip(grants(t, &wishes)) {
        // 62 has passed, so each length is at most its buffer's.
        let [rom, schedule, log] = panel.lengths().map(|length| length as usize);
        let (rom, behind) = roms.split_at(rom);
        roms = behind;
        let (schedule, behind) = schedules.split_at(schedule);
        schedules = behind;
        let (log, behind) = std::mem::take(&mut logs).split_at_mut(log);
        logs = behind;
        panel.go(rom, schedule, log, n, sheet);
    }
    FINISHED
}

//! "The line schedule": what the lines A to D, INT and RES show at each cycle.

use crate::numbers::{FINISHED, RECORD_BYTES, RECORD_CYCLE, SCHEDULE_LENGTH, SCHEDULE_LONG};

/// "Records of 10 bytes"; "at most 4,096 records".
pub(crate) const RECORD: usize = 10;
const LONGEST: usize = 4_096 * RECORD;

/// The lines of one cycle.
#[derive(Clone, Copy)]
pub(crate) struct Lines {
    /// Ports A to D.
    pub ports: [u8; 4],
    /// The INT level, 1 for high.
    pub int: u8,
    /// "The schedule's tenth byte becomes RES, 0 or 1".
    pub res: u8,
}

impl Lines {
    /// The lines of the port that DPL names, 0 if it has none.
    #[inline(always)]
    pub(crate) fn named(&self, dpl: u8) -> u8 {
        self.ports.get(usize::from(dpl)).copied().unwrap_or(0)
    }
}

/// The refusal of a schedule, 0 if there is none: "12 over 40,960 bytes; 11 length no multiple of
/// 10; then by record 13 bad INT or last byte, 14 cycle not above the last"; the last byte is RES, "and 13 is
/// amended so".
pub(crate) fn refusal(schedule: &[u8]) -> u8 {
    if schedule.len() > LONGEST {
        return SCHEDULE_LONG;
    }
    if !schedule.len().is_multiple_of(RECORD) {
        return SCHEDULE_LENGTH;
    }
    let mut last = None;
    for record in schedule.chunks_exact(RECORD) {
        if record[8] > 1 || record[9] > 1 {
            return RECORD_BYTES;
        }
        let cycle = cycle_of(record);
        if last.is_some_and(|last| cycle <= last) {
            return RECORD_CYCLE;
        }
        last = Some(cycle);
    }
    FINISHED
}

pub(crate) fn cycle_of(record: &[u8]) -> u64 {
    let mut bytes = [0; 8];
    bytes[2..].copy_from_slice(&record[..6]);
    u64::from_be_bytes(bytes)
}

pub(crate) fn lines_of(record: &[u8]) -> Lines {
    Lines {
        ports: [
            record[6] >> 4,
            record[6] & 15,
            record[7] >> 4,
            record[7] & 15,
        ],
        int: record[8],
        res: record[9],
    }
}

/// A place in a schedule without faults; it only moves forward.
#[derive(Clone)]
pub(crate) struct Cursor<'a> {
    /// "those of the last record at or before n; with none, ports 0 and INT high"; RES is "0 before any record"
    lines: Lines,
    /// The cycle at which other lines are taken: at first any, then that of the record after the
    /// cycle last gone to; with none, a cycle that is never reached.
    next: u64,
    /// The schedule from that record on.
    rest: &'a [u8],
}

impl<'a> Cursor<'a> {
    pub(crate) fn new(schedule: &'a [u8]) -> Cursor<'a> {
        Cursor {
            lines: Lines {
                ports: [0; 4],
                int: 1,
                res: 0,
            },
            next: 0,
            rest: schedule,
        }
    }

    /// Moves to this cycle, which lies nowhere before the last one.
    pub(crate) fn go_to(&mut self, cycle: u64) {
        let mut passed = None;
        self.next = u64::MAX;
        while let Some((record, rest)) = self.rest.split_at_checked(RECORD) {
            if cycle < cycle_of(record) {
                self.next = cycle_of(record);
                break;
            }
            passed = Some(record);
            self.rest = rest;
        }
        if let Some(record) = passed {
            self.lines = lines_of(record);
        }
    }

    /// A cursor that has moved to this cycle.
    pub(crate) fn at(&self, cycle: u64) -> Cursor<'a> {
        let mut cursor = self.clone();
        if cycle >= cursor.next {
            cursor.go_to(cycle);
        }
        cursor
    }

    /// The lines of the cycle last gone to.
    #[inline(always)]
    pub(crate) fn lines(&self) -> &Lines {
        &self.lines
    }

    /// Up to this cycle the lines are those of the cycle last gone to.
    #[inline(always)]
    pub(crate) fn next(&self) -> u64 {
        self.next
    }
}

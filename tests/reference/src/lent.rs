//! What a run is lent, kept in one place.

use crate::machine::State;
use crate::numbers::LOG_FULL;
use crate::runners::{run_observed, Answer, Nobody, Observer, Runner};
use crate::sheet::Sheet;

/// Program `trace`: "n (4 bytes, big-endian), ROM and schedule", and "a log of 16,384 bytes"; R-11: `trace` and R-4 "keep
/// the old figures".
const COUNT: usize = 4;
pub(crate) const ROM: usize = 2_000;
const LOG: usize = 16_384;

/// A run that is still to be done.
#[derive(Clone)]
pub struct Lent {
    pub runner: Runner,
    pub rom: Vec<u8>,
    pub schedule: Vec<u8>,
    pub state: State,
    pub log: Vec<u8>,
    pub n: u64,
    pub sheet: Sheet,
}

impl Lent {
    /// The run of an input of program `trace`, "a fresh state on the plain runner"; none for an input
    /// "under 2,004 bytes".
    pub fn of_panel(input: &[u8]) -> Option<Lent> {
        let (count, rest) = input.split_at_checked(COUNT)?;
        let (rom, schedule) = rest.split_at_checked(ROM)?;
        Some(Lent {
            runner: Runner::Plain,
            rom: rom.to_vec(),
            schedule: schedule.to_vec(),
            state: State::fresh(),
            log: vec![0; LOG],
            n: count.iter().fold(0, |n, &byte| n << 8 | u64::from(byte)),
            sheet: Sheet::UPD546,
        })
    }

    /// The same with a log that has room for every record.
    pub fn with_room(mut self) -> Lent {
        while self.clone().run().0.number == LOG_FULL {
            self.log = vec![0; 2 * self.log.len() + 16];
        }
        self
    }

    /// Runs it, and answers its log too.
    pub fn run(self) -> (Answer, Vec<u8>) {
        self.run_observed(Nobody)
    }

    /// The same, telling an observer of the instructions begun.
    pub fn run_observed<O: Observer>(mut self, observer: O) -> (Answer, Vec<u8>) {
        let answer = run_observed(
            self.runner,
            &self.rom,
            &self.schedule,
            &self.state,
            &mut self.log,
            self.n,
            self.sheet,
            observer,
        );
        (answer, self.log)
    }
}

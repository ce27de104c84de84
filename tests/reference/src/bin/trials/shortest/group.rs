//! Calls of a group, each with all that it is given.

use std::collections::BTreeSet;

use reference::shortest::{shortest, CYCLE_LOG};
use reference::{run, Runner, Sheet, State};

/// The bytes of a record.
const RECORD: usize = 10;

#[derive(Clone)]
pub struct Call {
    pub rom: Vec<u8>,
    pub schedule: Vec<u8>,
    pub state: State,
    pub n: u64,
    /// The length of the log that is lent.
    pub log: usize,
    pub sheet: Sheet,
}

impl Call {
    /// A panel of the uPD546 from the fresh state, whose ROM begins with this code, with a log of 16n bytes.
    pub fn new(code: &[u8], schedule: Vec<u8>, n: u64) -> Call {
        let mut rom = code.to_vec();
        rom.resize(Sheet::UPD546.rom as usize, 0);
        Call {
            rom,
            schedule,
            state: State::fresh(),
            n: 0,
            log: 0,
            sheet: Sheet::UPD546,
        }
        .cycles(n)
    }

    /// The same for n cycles, with a log of 16n bytes.
    pub fn cycles(&self, n: u64) -> Call {
        self.with(|call| {
            call.n = n;
            call.log = (CYCLE_LOG * n) as usize;
        })
    }

    pub fn with(&self, change: impl FnOnce(&mut Call)) -> Call {
        let mut call = self.clone();
        change(&mut call);
        call
    }

    /// The same on another chip.
    pub fn under(&self, sheet: Sheet) -> Call {
        self.with(|call| {
            call.sheet = sheet;
            call.rom.resize(sheet.rom as usize, 0);
        })
    }

    pub fn records(&self) -> usize {
        self.schedule.len() / RECORD
    }

    /// The number and k.
    pub fn find(&self, log: &mut [u8]) -> (u8, usize) {
        shortest(
            &self.rom,
            &self.schedule,
            &self.state,
            self.n,
            log,
            self.sheet,
        )
    }

    /// The number of the plain run with only the first k records.
    pub fn trial(&self, k: usize) -> u8 {
        self.ended(k).0
    }

    /// How many cycles the run with all records does before it ends.
    pub fn done(&self) -> u64 {
        self.ended(self.records()).1
    }

    fn ended(&self, k: usize) -> (u8, u64) {
        let kept = &self.schedule[..RECORD * k];
        let mut log = vec![0; (CYCLE_LOG * self.n) as usize];
        let runner = Runner::Plain;
        let answer = run(
            runner,
            &self.rom,
            kept,
            &self.state,
            &mut log,
            self.n,
            self.sheet,
        );
        (answer.number, answer.cycles)
    }

    /// All of it, for a person.
    pub fn shown(&self) -> String {
        let hex =
            |bytes: &[u8]| -> String { bytes.iter().map(|byte| format!("{byte:02X}")).collect() };
        format!(
            "{:?}\nROM of {} bytes {}\nschedule of {} bytes {}\n{:?}\n{} cycles, a log of {} bytes: ",
            self.sheet,
            self.rom.len(),
            hex(&self.rom),
            self.schedule.len(),
            hex(&self.schedule),
            self.state,
            self.n,
            self.log,
        )
    }
}

/// Calls with the numbers that they answer: all of these, and no other.
#[derive(Clone)]
pub struct Group {
    pub name: String,
    pub calls: Vec<Call>,
    numbers: BTreeSet<u8>,
    exactly: bool,
}

impl Group {
    pub fn new(name: impl Into<String>, calls: Vec<Call>, numbers: &[u8]) -> Group {
        Group {
            name: name.into(),
            calls,
            numbers: numbers.iter().copied().collect(),
            exactly: true,
        }
    }

    /// The same where not each of the numbers has to be answered.
    pub fn some(self) -> Group {
        Group {
            exactly: false,
            ..self
        }
    }

    /// A call alone is told in a line.
    pub fn is_line(&self) -> bool {
        self.calls.len() == 1
    }

    /// What is wrong with the numbers that are answered.
    pub fn fault(&self, answered: &BTreeSet<u8>) -> Option<String> {
        let right = if self.exactly {
            *answered == self.numbers
        } else {
            answered.is_subset(&self.numbers)
        };
        (!right).then(|| format!("{}: {answered:?} and not {:?}", self.name, self.numbers))
    }
}

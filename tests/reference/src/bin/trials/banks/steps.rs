//! What a group does, one step after the other, and what comes of it.

use std::collections::BTreeSet;

use reference::bank::{round, round_bytes, Counts, Panel, ENTRY};
use reference::case::state_bytes;
use reference::{save, Sheet, State, Version};

use crate::images::state_of;
use crate::stream::pattern;

const IMAGE: usize = 82;

/// The bytes of a state as a value, and of a panel that has one.
const STATE: usize = 133;
const VALUE: usize = STATE + ENTRY - IMAGE;

/// How the bank is lent: the bytes of C, or panels with a state as a value.
#[derive(Clone, Copy, PartialEq, Eq, Debug)]
pub enum Form {
    Bytes,
    Values,
}

impl Form {
    pub const BOTH: [Form; 2] = [Form::Bytes, Form::Values];

    /// The bytes of a panel.
    pub fn entry(self) -> usize {
        match self {
            Form::Bytes => ENTRY,
            Form::Values => VALUE,
        }
    }
}

/// A panel that is to be laid into a bank.
#[derive(Clone)]
pub struct Part {
    pub state: State,
    pub wish: u64,
    pub rom: Vec<u8>,
    pub schedule: Vec<u8>,
    pub log: usize,
    /// What the bank says of its lengths, where that isn't what they are.
    pub said: Option<[u64; 3]>,
    /// A byte of the image that is another, in the bytes of C.
    pub damage: Option<(usize, u8)>,
}

impl Part {
    pub fn lengths(&self) -> [u64; 3] {
        let lengths = [self.rom.len(), self.schedule.len(), self.log];
        self.said.unwrap_or(lengths.map(|length| length as u64))
    }

    /// What stood in its counts and its number is any.
    fn entry(&self, form: Form) -> Vec<u8> {
        let mut bytes = match form {
            Form::Values => state_bytes(&self.state),
            Form::Bytes => {
                let mut image = vec![0; IMAGE];
                save(Version::Two, &self.state, &mut image, Sheet::UPD546);
                image
            }
        };
        if let (Form::Bytes, Some((place, value))) = (form, self.damage) {
            bytes[place] = value;
        }
        let [rom, schedule, log] = self.lengths();
        for number in [self.wish, rom, schedule, log, 91, 92, 93, 94] {
            bytes.extend(number.to_be_bytes());
        }
        bytes.push(95);
        bytes
    }
}

fn numbers_of(bytes: &[u8]) -> Vec<u64> {
    let number = |bytes: &[u8]| bytes.iter().fold(0, |n, &byte| n << 8 | u64::from(byte));
    bytes.chunks_exact(8).map(number).collect()
}

fn panel_of(bytes: &[u8]) -> Panel {
    let numbers = numbers_of(&bytes[STATE..VALUE - 1]);
    Panel {
        state: state_of(&bytes[..STATE]),
        wish: numbers[0],
        lengths: [numbers[1], numbers[2], numbers[3]],
        counts: Counts {
            cycles: numbers[4],
            begun: numbers[5],
            written: numbers[6],
            steps: numbers[7],
        },
        number: bytes[VALUE - 1],
    }
}

fn put_panel(bytes: &mut [u8], panel: &Panel) {
    bytes[..STATE].copy_from_slice(&state_bytes(&panel.state));
    let Counts {
        cycles,
        begun,
        written,
        steps,
    } = panel.counts;
    let [rom, schedule, log] = panel.lengths;
    let numbers = [
        panel.wish, rom, schedule, log, cycles, begun, written, steps,
    ];
    for (place, number) in bytes[STATE..VALUE - 1].chunks_exact_mut(8).zip(numbers) {
        place.copy_from_slice(&number.to_be_bytes());
    }
    bytes[VALUE - 1] = panel.number;
}

#[derive(Clone)]
pub enum Step {
    Sheet(Sheet),
    /// All bytes of the bank.
    Bank(Vec<u8>),
    /// Its length alone. The bytes stay, also those past its end.
    Length(usize),
    BankByte(usize, u8),
    /// The bank is kept, or the kept one is brought back.
    Keep,
    BringBack,
    Roms(Vec<u8>),
    Schedules(Vec<u8>),
    /// Their lengths alone.
    RomsLength(usize),
    SchedulesLength(usize),
    /// A round of so many cycles, with logs of so many bytes.
    Round(Form, u64, usize),
}

/// What a round answers, and what it leaves.
pub struct Answer<'a> {
    pub number: u8,
    pub form: Form,
    pub bank: &'a [u8],
    pub logs: &'a [u8],
}

/// Bytes, and how many of them are lent.
#[derive(Clone, Default)]
struct Lent {
    bytes: Vec<u8>,
    length: usize,
}

impl Lent {
    fn set(&mut self, bytes: &[u8]) {
        self.bytes = bytes.to_vec();
        self.length = bytes.len();
    }

    fn part(&self) -> &[u8] {
        &self.bytes[..self.length]
    }
}

/// What the rounds are given.
#[derive(Clone)]
struct Given {
    sheet: Sheet,
    bank: Lent,
    kept: Vec<u8>,
    roms: Lent,
    schedules: Lent,
    logs: Vec<u8>,
}

impl Given {
    /// As a group begins: nothing, on the uPD546.
    fn start() -> Given {
        Given {
            sheet: Sheet::UPD546,
            bank: Lent::default(),
            kept: Vec::new(),
            roms: Lent::default(),
            schedules: Lent::default(),
            logs: Vec::new(),
        }
    }

    /// Takes a step; what a round answers.
    fn take(&mut self, step: &Step) -> Option<Answer<'_>> {
        match step {
            Step::Sheet(sheet) => self.sheet = *sheet,
            Step::Bank(bytes) => self.bank.set(bytes),
            Step::Length(length) => self.bank.length = *length,
            Step::BankByte(place, value) => self.bank.bytes[*place] = *value,
            Step::Keep => self.kept.clone_from(&self.bank.bytes),
            Step::BringBack => self.bank.bytes.clone_from(&self.kept),
            Step::Roms(bytes) => self.roms.set(bytes),
            Step::Schedules(bytes) => self.schedules.set(bytes),
            Step::RomsLength(length) => self.roms.length = *length,
            Step::SchedulesLength(length) => self.schedules.length = *length,
            Step::Round(form, t, logs) => {
                self.logs = pattern(*logs);
                let number = self.round(*form, *t);
                return Some(Answer {
                    number,
                    form: *form,
                    bank: self.bank.part(),
                    logs: &self.logs,
                });
            }
        }
        None
    }

    fn round(&mut self, form: Form, t: u64) -> u8 {
        let bank = &mut self.bank.bytes[..self.bank.length];
        let (roms, schedules) = (self.roms.part(), self.schedules.part());
        let logs = &mut self.logs;
        if form == Form::Bytes {
            return round_bytes(bank, roms, schedules, logs, t, self.sheet);
        }
        let mut panels: Vec<Panel> = bank.chunks_exact(VALUE).map(panel_of).collect();
        let number = round(&mut panels, roms, schedules, logs, t, self.sheet);
        for (bytes, panel) in bank.chunks_exact_mut(VALUE).zip(&panels) {
            put_panel(bytes, panel);
        }
        number
    }
}

/// Goes through the steps, and shows each with what it answers.
pub fn play(steps: &[Step], mut shown: impl FnMut(&Step, Option<Answer>)) {
    let mut given = Given::start();
    for step in steps {
        let answer = given.take(step);
        shown(step, answer);
    }
}

/// The numbers of the panels of a bank.
pub fn panel_numbers(answer: &Answer) -> Vec<u8> {
    let entry = answer.form.entry();
    let number = |bytes: &[u8]| bytes[entry - 1];
    answer.bank.chunks_exact(entry).map(number).collect()
}

/// Steps with the numbers that their rounds may answer, and whether each of them has to be answered; and numbers that panels have to
/// have in some round.
#[derive(Clone)]
pub struct Group {
    pub name: String,
    pub steps: Vec<Step>,
    numbers: BTreeSet<u8>,
    exactly: bool,
    panels: BTreeSet<u8>,
}

impl Group {
    /// How many rounds it has. One alone is told in a line.
    pub fn calls(&self) -> usize {
        let is_call = |step: &&Step| matches!(step, Step::Round(..));
        self.steps.iter().filter(is_call).count()
    }

    /// What is wrong with the numbers that are answered.
    pub fn fault(&self) -> Option<String> {
        let (mut answered, mut panels) = (BTreeSet::new(), BTreeSet::new());
        play(&self.steps, |_, answer| {
            if let Some(answer) = answer {
                answered.insert(answer.number);
                if answer.number == 0 {
                    panels.extend(panel_numbers(&answer));
                }
            }
        });
        let right = if self.exactly {
            answered == self.numbers
        } else {
            answered.is_subset(&self.numbers)
        };
        (!right || !panels.is_superset(&self.panels)).then(|| {
            format!(
                "{}: {answered:?} and not {:?}, panels {panels:?} and not {:?}",
                self.name, self.numbers, self.panels
            )
        })
    }
}

/// Writes the steps of a group, and knows what they come to.
pub struct Maker {
    name: String,
    steps: Vec<Step>,
    given: Given,
    form: Form,
    panels: BTreeSet<u8>,
}

impl Maker {
    pub fn new(name: impl Into<String>, form: Form) -> Maker {
        Maker {
            name: format!("{}, {form:?}", name.into()),
            steps: Vec::new(),
            given: Given::start(),
            form,
            panels: BTreeSet::new(),
        }
    }

    fn step(&mut self, step: Step) {
        self.given.take(&step);
        self.steps.push(step);
    }

    pub fn sheet(&mut self, sheet: Sheet) {
        if self.given.sheet != sheet {
            self.step(Step::Sheet(sheet));
        }
    }

    /// A bank of these panels, with buffers that hold all of it and no more.
    pub fn bank(&mut self, parts: &[Part]) {
        let entries: Vec<u8> = parts.iter().flat_map(|p| p.entry(self.form)).collect();
        self.step(Step::Bank(entries));
        let roms: Vec<u8> = parts.iter().flat_map(|part| part.rom.clone()).collect();
        if self.given.roms.part() != roms {
            self.step(Step::Roms(roms));
        }
        let schedules: Vec<u8> = parts.iter().flat_map(|p| p.schedule.clone()).collect();
        if self.given.schedules.part() != schedules {
            self.step(Step::Schedules(schedules));
        }
    }

    pub fn length(&mut self, length: usize) {
        self.step(Step::Length(length));
    }

    pub fn byte(&mut self, place: usize, value: u8) {
        self.step(Step::BankByte(place, value));
    }

    pub fn keep(&mut self) {
        self.step(Step::Keep);
    }

    pub fn bring_back(&mut self) {
        self.step(Step::BringBack);
    }

    pub fn roms_length(&mut self, length: usize) {
        self.step(Step::RomsLength(length));
    }

    pub fn schedules_length(&mut self, length: usize) {
        self.step(Step::SchedulesLength(length));
    }

    pub fn round(&mut self, t: u64, logs: usize) {
        self.step(Step::Round(self.form, t, logs));
    }

    /// These numbers are among those that the panels have.
    pub fn panels_have(mut self, numbers: &[u8]) -> Maker {
        self.panels.extend(numbers);
        self
    }

    /// All these numbers are answered, and no other.
    pub fn answers(self, numbers: &[u8]) -> Group {
        Group {
            name: self.name,
            steps: self.steps,
            numbers: numbers.iter().copied().collect(),
            exactly: true,
            panels: self.panels,
        }
    }

    /// No number but these is answered.
    pub fn answers_among(self, numbers: &[u8]) -> Group {
        Group {
            exactly: false,
            ..self.answers(numbers)
        }
    }
}

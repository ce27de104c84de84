//! What a group does, one step after the other, and what comes of it.

use std::collections::BTreeSet;

use reference::store::{recall, store, ENTRY, NAME};
use reference::Sheet;

#[derive(Clone)]
pub enum Step {
    Sheet(Sheet),
    /// All bytes of the store.
    Store(Vec<u8>),
    /// Its length alone. The bytes stay, also those past its end.
    Length(usize),
    StoreByte(usize, u8),
    Name(Vec<u8>),
    Image(Vec<u8>),
    Keep,
    Recall,
}

/// What a call answers: its number, and what it leaves.
pub enum Answer<'a> {
    Kept(u8, &'a [u8]),
    /// The place of the entry, 0 where there is none, and the part handed back.
    Recalled(u8, usize, &'a [u8]),
}

impl Answer<'_> {
    pub fn number(&self) -> u8 {
        match self {
            Answer::Kept(number, _) | Answer::Recalled(number, ..) => *number,
        }
    }
}

/// What the calls are given.
#[derive(Clone)]
struct Given {
    sheet: Sheet,
    /// Longer than the store where that was cut.
    bytes: Vec<u8>,
    length: usize,
    name: Vec<u8>,
    image: Vec<u8>,
}

impl Given {
    /// As a group begins: nothing, on the uPD546.
    fn start() -> Given {
        Given {
            sheet: Sheet::UPD546,
            bytes: Vec::new(),
            length: 0,
            name: Vec::new(),
            image: Vec::new(),
        }
    }

    /// Takes a step; what a call answers.
    fn take(&mut self, step: &Step) -> Option<Answer<'_>> {
        match step {
            Step::Sheet(sheet) => self.sheet = *sheet,
            Step::Store(bytes) => {
                self.bytes.clone_from(bytes);
                self.length = bytes.len();
            }
            Step::Length(length) => self.length = *length,
            Step::StoreByte(place, value) => self.bytes[*place] = *value,
            Step::Name(name) => self.name.clone_from(name),
            Step::Image(image) => self.image.clone_from(image),
            Step::Keep => {
                let lent = &mut self.bytes[..self.length];
                let number = store(lent, &self.name, &self.image, self.sheet);
                return Some(Answer::Kept(number, lent));
            }
            Step::Recall => {
                let lent = &self.bytes[..self.length];
                let (number, part) = recall(lent, &self.name, self.sheet);
                let of_name = |entry: &[u8]| entry[..NAME] == self.name;
                let place = match number {
                    0 => lent.chunks(ENTRY).position(of_name).unwrap_or(usize::MAX),
                    _ => 0,
                };
                return Some(Answer::Recalled(number, place, part));
            }
        }
        None
    }
}

/// Goes through the steps, and shows each with what it answers.
pub fn play(steps: &[Step], mut shown: impl FnMut(&Step, Option<Answer>)) {
    let mut given = Given::start();
    for step in steps {
        let answer = given.take(step);
        shown(step, answer);
    }
}

/// Steps with the numbers that their calls may answer, and whether each of them has to be answered.
#[derive(Clone)]
pub struct Group {
    pub name: String,
    pub steps: Vec<Step>,
    numbers: BTreeSet<u8>,
    exactly: bool,
}

impl Group {
    /// How many calls it has. One alone is told in a line.
    pub fn calls(&self) -> usize {
        let is_call = |step: &&Step| matches!(step, Step::Keep | Step::Recall);
        self.steps.iter().filter(is_call).count()
    }

    /// What is wrong with the numbers that are answered.
    pub fn fault(&self) -> Option<String> {
        let answered = self.answered();
        let right = if self.exactly {
            answered == self.numbers
        } else {
            answered.is_subset(&self.numbers)
        };
        (!right).then(|| format!("{}: {answered:?} and not {:?}", self.name, self.numbers))
    }

    pub fn answered(&self) -> BTreeSet<u8> {
        let mut numbers = BTreeSet::new();
        play(&self.steps, |_, answer| {
            numbers.extend(answer.map(|answer| answer.number()))
        });
        numbers
    }
}

/// So many bytes are changed one by one.
const FEW: usize = 4;

/// Writes the steps of a group, and knows what they come to. It steps no more than it has to.
pub struct Maker {
    name: String,
    steps: Vec<Step>,
    given: Given,
}

impl Maker {
    pub fn new(name: impl Into<String>) -> Maker {
        Maker {
            name: name.into(),
            steps: Vec::new(),
            given: Given::start(),
        }
    }

    fn step(&mut self, step: Step) {
        self.given.take(&step);
        self.steps.push(step);
    }

    pub fn sheet(&mut self, sheet: Sheet) {
        if self.given.sheet != sheet {
            self.step(Step::Sheet(sheet));
        }
    }

    /// The store has these bytes from here on.
    pub fn store(&mut self, bytes: &[u8]) {
        let there = self.given.bytes.get(..bytes.len()).unwrap_or(&[]);
        let changed = there.iter().zip(bytes).filter(|(one, other)| one != other);
        if there.len() < bytes.len() || changed.count() > FEW {
            self.step(Step::Store(bytes.to_vec()));
            return;
        }
        if self.given.length != bytes.len() {
            self.step(Step::Length(bytes.len()));
        }
        for (place, &value) in bytes.iter().enumerate() {
            if self.given.bytes[place] != value {
                self.step(Step::StoreByte(place, value));
            }
        }
    }

    fn name(&mut self, name: &[u8]) {
        if self.given.name != name {
            self.step(Step::Name(name.to_vec()));
        }
    }

    pub fn keep(&mut self, name: &[u8], image: &[u8]) {
        self.name(name);
        if self.given.image != image {
            self.step(Step::Image(image.to_vec()));
        }
        self.step(Step::Keep);
    }

    pub fn recall(&mut self, name: &[u8]) {
        self.name(name);
        self.step(Step::Recall);
    }

    /// All these numbers are answered, and no other.
    pub fn answers(self, numbers: &[u8]) -> Group {
        Group {
            name: self.name,
            steps: self.steps,
            numbers: numbers.iter().copied().collect(),
            exactly: true,
        }
    }

    /// No number but these is answered.
    pub fn answers_among(self, numbers: &[u8]) -> Group {
        Group {
            exactly: false,
            ..self.answers(numbers)
        }
    }
}

//! One case: from where its log is read on, the log, and what it has to be answered by.

use std::collections::BTreeSet;

use reference::log::{Record, RECORD};
use reference::waiting::{read_on, Answer, Carried, Ground};

/// The longest log that a reader takes.
pub const LONGEST: usize = 4_000;

/// From where a log is read on.
#[derive(Clone, Copy, PartialEq, Eq, Debug)]
pub enum Source {
    /// An empty report: all zeros.
    Empty,
    /// What the case before answered.
    Before,
    /// What is given.
    Given(Carried),
}

/// What a case has to be answered by.
#[derive(Clone, Copy, PartialEq, Eq, Debug)]
pub enum Due {
    Accepted,
    /// A number, for one ground or several.
    Refused(u8),
    /// A number, for this ground and no other.
    Alone(Ground),
}

impl Due {
    /// Whether a log with these grounds is answered so.
    pub fn fits(self, grounds: &BTreeSet<Ground>) -> bool {
        match self {
            Due::Accepted => grounds.is_empty(),
            Due::Refused(number) => grounds.iter().any(|ground| ground.number() == number),
            Due::Alone(ground) => *grounds == BTreeSet::from([ground]),
        }
    }
}

#[derive(Clone)]
pub struct Case {
    pub name: String,
    pub from: Source,
    pub log: Vec<u8>,
    pub due: Due,
    /// It has to answer what the case so many places before it does.
    pub same: Option<usize>,
}

impl Case {
    pub fn new(name: impl Into<String>, from: Source, log: Vec<u8>) -> Case {
        Case {
            name: name.into(),
            from,
            log,
            due: Due::Accepted,
            same: None,
        }
    }

    pub fn due(mut self, due: Due) -> Case {
        self.due = due;
        self
    }

    /// Refused for this ground alone.
    pub fn alone(self, ground: Ground) -> Case {
        self.due(Due::Alone(ground))
    }

    pub fn refused(self, number: u8) -> Case {
        self.due(Due::Refused(number))
    }

    pub fn same(mut self, back: usize) -> Case {
        self.same = Some(back);
        self
    }

    /// The case as the file has it.
    pub fn bytes(&self) -> Vec<u8> {
        assert!(self.log.len() <= LONGEST, "{}", self.name);
        let (from, carried) = match self.from {
            Source::Empty => (0, Vec::new()),
            Source::Before => (1, Vec::new()),
            Source::Given(carried) => (2, carried_bytes(&carried)),
        };
        let mut bytes = vec![from];
        bytes.extend((self.log.len() as u16).to_be_bytes());
        bytes.extend(carried);
        bytes.extend(&self.log);
        bytes
    }
}

fn carried_bytes(carried: &Carried) -> Vec<u8> {
    let mut bytes = Vec::new();
    for landing in &carried.landings {
        for figure in [landing.closed, landing.cycles, landing.longest] {
            bytes.extend(figure.to_be_bytes());
        }
        bytes.push(landing.open);
        bytes.extend(landing.start.to_be_bytes());
    }
    bytes.push(carried.lamps);
    bytes.extend(carried.last.to_be_bytes());
    bytes
}

/// For each case what its log is read on from, and what it answers.
pub fn answers(cases: &[Case]) -> Vec<(Carried, Answer)> {
    let mut answers = Vec::new();
    let mut before = Carried::default();
    for case in cases {
        let carried = match case.from {
            Source::Empty => Carried::default(),
            Source::Before => before,
            Source::Given(carried) => carried,
        };
        let answer = read_on(&carried, &case.log);
        before = answer.carried;
        answers.push((carried, answer));
    }
    answers
}

/// A log of records: cycle, port, value.
pub fn log(records: &[(u64, u8, u8)]) -> Vec<u8> {
    let mut log = Vec::new();
    for &(cycle, port, value) in records {
        let record = Record { cycle, port, value };
        log.extend(record.bytes());
    }
    log
}

/// A log, and the same cut into parts that are read on one from the other. The parts have so many
/// records each.
pub fn cut(name: &str, from: Source, log: &[u8], parts: &[usize]) -> Vec<Case> {
    let mut cases = vec![Case::new(name, from, log.to_vec())];
    let mut rest = log;
    for (place, records) in parts.iter().enumerate() {
        let (part, after) = rest.split_at(records * RECORD);
        let from = if place == 0 { from } else { Source::Before };
        let name = format!("{name}, part {place}");
        cases.push(Case::new(name, from, part.to_vec()));
        rest = after;
    }
    assert!(rest.is_empty(), "{name}");
    let last = cases.pop().expect("there are cases");
    cases.push(last.same(parts.len()));
    cases
}

#[cfg(test)]
mod tests {
    use super::*;
    use reference::waiting::Landing;

    #[test]
    fn a_case_is_laid_out_as_the_file_has_it() {
        let mut carried = Carried {
            lamps: 0x0A,
            last: 0x0102_0304_0506_0708,
            ..Carried::default()
        };
        carried.landings[1] = Landing {
            closed: 0x11,
            cycles: 0x2200,
            longest: 0x33_0000,
            open: 0x44,
            start: 0x5500_0000_0000_0000,
        };
        let bytes = Case::new("case", Source::Given(carried), vec![7; 300]).bytes();
        assert_eq!(bytes.len(), 1 + 2 + 141 + 300);
        assert_eq!(bytes[..3], [2, 1, 44]);
        assert_eq!(bytes[3..36], [0; 33]);
        let landing = [
            [0, 0, 0, 0, 0, 0, 0, 0x11],
            [0, 0, 0, 0, 0, 0, 0x22, 0],
            [0, 0, 0, 0, 0, 0x33, 0, 0],
        ];
        assert_eq!(bytes[36..60], landing.concat());
        assert_eq!(bytes[60..69], [0x44, 0x55, 0, 0, 0, 0, 0, 0, 0]);
        assert_eq!(bytes[69..135], [0; 66]);
        assert_eq!(bytes[135..144], [0x0A, 1, 2, 3, 4, 5, 6, 7, 8]);
        assert_eq!(bytes[144..], [7; 300]);
        let bytes = Case::new("case", Source::Before, vec![9, 8]).bytes();
        assert_eq!(bytes, [1, 0, 2, 9, 8]);
        let bytes = Case::new("case", Source::Empty, vec![]).bytes();
        assert_eq!(bytes, [0, 0, 0]);
    }

    #[test]
    fn a_refused_case_hands_zeros_on() {
        let lit = log(&[(5, 5, 3)]);
        let cases = [
            Case::new("lit", Source::Empty, lit.clone()),
            Case::new("read on", Source::Before, log(&[(8, 5, 0)])),
            Case::new("torn", Source::Before, vec![0; 7]),
            Case::new("from zeros", Source::Before, lit),
        ];
        let answers = answers(&cases);
        let numbers: Vec<u8> = answers.iter().map(|(_, answer)| answer.number).collect();
        assert_eq!(numbers, [0, 0, 41, 0]);
        assert_eq!(answers[1].1.carried.landings[1].cycles, 3);
        assert_eq!(answers[3].0, Carried::default());
        assert_eq!(answers[3].1, answers[0].1);
    }
}

//! The cases: seeds and numbers of records, buffers that are too short, just long enough and longer.

use std::collections::BTreeSet;

use reference::case::digest;
use reference::draw::Draw;
use reference::kinds::{Count, Kind as CasesKind};
use reference::load::{make_rom, make_schedule, MOST};
use reference::numbers::{BUFFER_SHORT, FINISHED, MANY_RECORDS};

/// The longest buffer of the file.
const LONGEST: u32 = 65_536;

#[derive(Clone, Copy)]
enum Kind {
    Rom,
    Schedule(u64),
}

pub struct Case {
    pub name: String,
    kind: Kind,
    seed: u32,
    length: u32,
    due: u8,
}

impl Case {
    fn rom(seed: u32, length: u32) -> Case {
        Case {
            name: format!("ROM of seed {seed} in {length} bytes"),
            kind: Kind::Rom,
            seed,
            length,
            due: if length < 2_000 {
                BUFFER_SHORT
            } else {
                FINISHED
            },
        }
    }

    fn schedule(seed: u32, records: u64, length: u32) -> Case {
        Case {
            name: format!("schedule of seed {seed} with {records} records in {length} bytes"),
            kind: Kind::Schedule(records),
            seed,
            length,
            due: match records {
                0..=4_096 if 10 * records <= u64::from(length) => FINISHED,
                0..=4_096 => BUFFER_SHORT,
                _ => MANY_RECORDS,
            },
        }
    }

    pub fn bytes(&self) -> Vec<u8> {
        let (kind, records) = match self.kind {
            Kind::Rom => (0, 0),
            Kind::Schedule(records) => (1, records),
        };
        let mut bytes = vec![kind];
        bytes.extend(self.seed.to_be_bytes());
        bytes.extend(records.to_be_bytes());
        bytes.extend(self.length.to_be_bytes());
        bytes
    }

    /// The number, and the buffer before and after the call.
    fn made(&self) -> (u8, Vec<u8>, Vec<u8>) {
        let before: Vec<u8> = (0..self.length).map(|i| (7 * i + 13) as u8).collect();
        let mut buffer = before.clone();
        let number = match self.kind {
            Kind::Rom => make_rom(self.seed, &mut buffer),
            Kind::Schedule(records) => make_schedule(self.seed, records, &mut buffer),
        };
        (number, before, buffer)
    }

    pub fn line(&self) -> String {
        let (number, _, buffer) = self.made();
        let first = (0..10).map(|i| format!(" {}", buffer.get(i).unwrap_or(&0)));
        format!(
            "{number} {}{}\n",
            digest(&buffer),
            first.collect::<String>()
        )
    }
}

pub const KINDS: [CasesKind<Case>; 4] = [
    ("roms", roms),
    ("lengths", lengths),
    ("records", records),
    ("wide", wide),
];

/// How many different seeds the ROMs are of.
pub fn seed_count() -> Count {
    let seeds: BTreeSet<u32> = seeds().into_iter().collect();
    (String::from("loads/seeds"), seeds.len())
}

/// Seeds at the edges of 32 bits, small ones and drawn ones, each for a ROM and for a short schedule.
fn seeds() -> Vec<u32> {
    let mut seeds: Vec<u32> = (0..64).collect();
    seeds.extend((0..32).map(|k| 1 << k));
    seeds.extend([
        u32::MAX,
        u32::MAX - 1,
        1 << 31,
        (1 << 31) - 1,
        (1 << 24) - 1,
    ]);
    let mut draw = Draw::new(4);
    seeds.extend((0..100).map(|_| draw.next()));
    seeds
}

fn roms() -> Vec<Case> {
    let mut draw = Draw::new(43);
    let mut cases = Vec::new();
    for seed in seeds() {
        let more = draw.below(50) as u32;
        cases.push(Case::rom(seed, 2_000 + more));
        let records = draw.below(120);
        cases.push(Case::schedule(seed, records, 10 * records as u32 + more));
    }
    cases
}

/// Buffers around 2,000 bytes and around 10m.
fn lengths() -> Vec<Case> {
    let mut cases: Vec<Case> = [0, 1, 1_999, 2_000, 2_001, 4_096, 40_960, LONGEST]
        .map(|length| Case::rom(5, length))
        .into();
    for records in [0, 1, 2, 3, 100, 409, 410, 4_095, 4_096] {
        let exact = 10 * records as u32;
        for length in [
            exact.saturating_sub(10),
            exact.saturating_sub(1),
            exact,
            exact + 1,
            exact + 10,
        ] {
            cases.push(Case::schedule(6, records, length));
        }
    }
    cases
}

/// m around 4,096, with buffers that hold it and that don't.
fn records() -> Vec<Case> {
    let mut cases = Vec::new();
    for seed in [0, 1, 7, u32::MAX] {
        for records in [0, 4_095, 4_096, 4_097] {
            for length in [0, 40_950, 40_959, 40_960, 40_961, 40_970, LONGEST] {
                cases.push(Case::schedule(seed, records, length));
            }
        }
    }
    cases
}

/// m that is small in its low bits, or whose 10m is small in 64 bits.
fn wide() -> Vec<Case> {
    let mut cases = Vec::new();
    for records in [
        4_098,
        1 << 16,
        1 << 32,
        (1 << 32) + 1,
        1 << 63,
        u64::MAX / 10 + 1,
        u64::MAX - 1,
        u64::MAX,
    ] {
        for length in [0, 10, LONGEST] {
            cases.push(Case::schedule(8, records, length));
        }
    }
    cases
}

/// Each case has the number that is due, a refusal writes nothing, and bytes past the output are kept.
pub fn faults(cases: &[Case]) -> Vec<String> {
    let mut faults = Vec::new();
    for case in cases {
        let (number, before, after) = case.made();
        let output = match case.kind {
            _ if number != FINISHED => 0,
            Kind::Rom => 2_000,
            Kind::Schedule(records) => 10 * records as usize,
        };
        if number != case.due {
            faults.push(format!("{}: {number} and not {}", case.name, case.due));
        }
        if before[output..] != after[output..] {
            faults.push(format!("{}: a byte past the output", case.name));
        }
    }
    for number in [FINISHED, MANY_RECORDS, BUFFER_SHORT] {
        if !cases.iter().any(|case| case.due == number) {
            faults.push(format!("no case ends with {number}"));
        }
    }
    if !cases
        .iter()
        .any(|case| matches!(case.kind, Kind::Schedule(MOST)) && case.due == FINISHED)
    {
        faults.push(String::from("no schedule is as long as may be"));
    }
    faults
}

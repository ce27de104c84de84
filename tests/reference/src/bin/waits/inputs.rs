//! The inputs of program `waits`: a port log of any length, from an empty report. Long ones reach past a
//! buffer of 65,536 bytes, and past a second one.

use reference::draw::Draw;
use reference::kinds::{all_of, Kind};
use reference::log::{Record, RECORD};
use reference::maker::sample;
use reference::ports;
use reference::waiting::{grounds, read_on, report_text, Carried, Ground};

use crate::case::{log, Due};

pub struct Input {
    pub name: String,
    pub log: Vec<u8>,
    pub due: Due,
}

impl Input {
    pub fn text(&self) -> String {
        report_text(&read_on(&Carried::default(), &self.log))
    }
}

/// A buffer, and the records that it holds.
const BUFFER: usize = 65_536;
const FULL: usize = BUFFER / RECORD;

/// The longest log.
const LONG: usize = 200_000;

pub const KINDS: [Kind<Input>; 7] = [
    ("short", short),
    ("samples", samples),
    ("torn", torn),
    ("wrong_records", wrong_records),
    ("resets", resets),
    ("long", long),
    ("long_and_wrong", long_and_wrong),
];

pub fn all() -> Vec<Input> {
    all_of(&KINDS)
}

/// Each input has to be answered as it says; each ground that a log itself can have has to be there,
/// alone; and in the long log waits are open where a buffer ends.
pub fn faults(inputs: &[Input]) -> Vec<String> {
    let mut faults = Vec::new();
    for input in inputs {
        let found = grounds(&Carried::default(), &input.log);
        if !input.due.fits(&found) {
            faults.push(format!("{}: {found:?}", input.name));
        }
    }
    for due in [
        Due::Accepted,
        Due::Alone(Ground::Length),
        Due::Alone(Ground::Port),
        Due::Alone(Ground::Value),
        Due::Alone(Ground::Cycle),
    ] {
        if !inputs.iter().any(|input| input.due == due) {
            faults.push(format!("no input: {due:?}"));
        }
    }
    for length in [BUFFER, 2 * BUFFER] {
        let log = long_log();
        let open = |log: &[u8]| read_on(&Carried::default(), log).carried.lamps;
        if open(&log[..length]) != 15 || open(&log[..length + 2 * RECORD]) != 0 {
            faults.push(format!("no waits lie across byte {length}"));
        }
    }
    faults
}

fn input(name: impl Into<String>, log: Vec<u8>) -> Input {
    Input {
        name: name.into(),
        log,
        due: Due::Accepted,
    }
}

fn alone(name: impl Into<String>, log: Vec<u8>, ground: Ground) -> Input {
    Input {
        due: Due::Alone(ground),
        ..input(name, log)
    }
}

fn short() -> Vec<Input> {
    vec![
        input("no byte", Vec::new()),
        input("one record that lights", log(&[(7, 5, 1)])),
        input("one record of another port", log(&[(7, 2, 15)])),
        input("a wait", log(&[(7, 5, 2), (12, 5, 0)])),
        input("a wait of 0 cycles", log(&[(7, 5, 2), (7, 5, 0)])),
        input(
            "a wait from cycle 0 to the last",
            log(&[(0, 5, 15), ((1 << 48) - 1, 5, 8)]),
        ),
        input(
            "waits of 50 and 100 cycles and an open one",
            log(&[(10, 5, 1), (60, 5, 0), (200, 5, 1), (300, 5, 2)]),
        ),
        input(
            "every port",
            log(&[
                (1, 2, 15),
                (1, 3, 15),
                (2, 4, 15),
                (3, 5, 15),
                (4, 6, 15),
                (5, 7, 15),
                (6, 8, 7),
            ]),
        ),
    ]
}

fn samples() -> Vec<Input> {
    vec![
        input("sample lobby", sample("lobby.log")),
        alone("sample torn", sample("torn.log"), Ground::Length),
        alone("sample backwards", sample("backwards.log"), Ground::Cycle),
        input("the log of sample blink", ports(&sample("blink.panel"))),
    ]
}

/// Lengths that are no multiple of 8, of sound records and of zeros.
fn torn() -> Vec<Input> {
    let sound = &long_log()[..2_048];
    let mut inputs = Vec::new();
    for length in [1, 2, 3, 4, 5, 6, 7, 9, 15, 17, 23, 100, 1_001, 2_047] {
        let name = format!("{length} bytes of a log");
        inputs.push(alone(name, sound[..length].to_vec(), Ground::Length));
    }
    for length in [1, 7, 9, 4_095] {
        let name = format!("{length} zeros");
        inputs.push(alone(name, vec![0; length], Ground::Length));
    }
    inputs
}

fn wrong_records() -> Vec<Input> {
    let mut inputs = Vec::new();
    for port in [1, 9, 255] {
        let name = format!("port {port}");
        let log = log(&[(3, 5, 1), (9, port, 1), (12, 5, 0)]);
        inputs.push(alone(name, log, Ground::Port));
    }
    for (port, value) in [
        (0, 1),
        (0, 15),
        (0, 255),
        (2, 16),
        (5, 16),
        (5, 255),
        (7, 128),
        (8, 8),
        (8, 15),
    ] {
        let name = format!("{value} on port {port}");
        let log = log(&[(3, 5, 1), (9, port, value), (12, 5, 0)]);
        inputs.push(alone(name, log, Ground::Value));
    }
    for (first, second) in [(9, 8), (256, 255), (1 << 40, 1), ((1 << 48) - 1, 0)] {
        let name = format!("cycle {first}, then {second}");
        let log = log(&[(first, 5, 1), (second, 5, 0)]);
        inputs.push(alone(name, log, Ground::Cycle));
    }
    inputs.push(Input {
        due: Due::Refused(42),
        ..input(
            "port, value and cycle",
            log(&[(9, 5, 1), (8, 9, 16), (12, 5, 0)]),
        )
    });
    inputs.push(alone("8 ones", vec![1; 8], Ground::Port));
    inputs.push(alone("65,536 ones", vec![1; BUFFER], Ground::Port));
    inputs
}

/// Records of resets: also as many zeros as make some. In the long log a reset stands at and behind the end of
/// each buffer, instead of the two records that darken the lamps.
fn resets() -> Vec<Input> {
    let mut log_of = long_log();
    for place in [FULL - 1, 2 * FULL, 2 * FULL + 1, 3_000, LONG / RECORD - 1] {
        log_of[place * RECORD + 6..place * RECORD + 8].fill(0);
    }
    vec![
        input("8 zeros", vec![0; 8]),
        input("65,536 zeros", vec![0; BUFFER]),
        input("65,544 zeros", vec![0; BUFFER + 8]),
        input("a reset of a lit lamp", log(&[(7, 5, 1), (20, 0, 0)])),
        input(
            "a reset, and lit again",
            log(&[(7, 5, 5), (20, 0, 0), (20, 5, 4), (31, 5, 0)]),
        ),
        input(
            "a reset of dark lamps",
            log(&[(7, 5, 0), (20, 0, 0), (30, 0, 0)]),
        ),
        input("a long log with resets", log_of),
        input("the log of sample reset", ports(&sample("reset.panel"))),
    ]
}

/// 200,000 bytes. The last record of a full buffer lights all lamps, and the second one after it
/// darkens them.
fn long_log() -> Vec<u8> {
    let mut draw = Draw::new(65_536);
    let mut cycle = 0;
    let mut log = Vec::new();
    for place in 0..LONG / RECORD {
        let (port, value) = match place % FULL {
            last if last == FULL - 1 => (5, 15),
            0 => (2, 9),
            1 => (5, 0),
            _ if draw.one_in(3) => (draw.of(&[2, 3, 4, 6, 7]), draw.upto(15)),
            _ if draw.one_in(20) => (8, draw.upto(7)),
            _ => (5, draw.word()),
        };
        cycle += draw.below(30);
        let record = Record { cycle, port, value };
        log.extend(record.bytes());
    }
    log
}

fn long() -> Vec<Input> {
    let whole = long_log();
    let mut inputs = Vec::new();
    for length in [
        BUFFER - 8,
        BUFFER,
        BUFFER + 8,
        BUFFER + 16,
        100_000,
        2 * BUFFER - 8,
        2 * BUFFER,
        2 * BUFFER + 8,
        2 * BUFFER + 16,
        LONG,
    ] {
        let name = format!("a long log of {length} bytes");
        inputs.push(input(name, whole[..length].to_vec()));
    }
    for length in [
        BUFFER - 7,
        BUFFER - 1,
        BUFFER + 1,
        BUFFER + 4,
        2 * BUFFER - 1,
        2 * BUFFER + 1,
        2 * BUFFER + 7,
        LONG - 1,
    ] {
        let name = format!("a long log of {length} bytes");
        inputs.push(alone(name, whole[..length].to_vec(), Ground::Length));
    }
    // One wait over all of it, of writes to other ports.
    let mut one: Vec<u8> = log(&[(0, 5, 1)]);
    for k in 1..LONG as u64 / 8 - 1 {
        one.extend(log(&[(k, 2, 3)]));
    }
    one.extend(log(&[(1 << 40, 5, 0)]));
    inputs.push(input("one wait over 200,000 bytes", one));
    // The log of a run: every port in a loop.
    let mut code = vec![0x9F];
    for port in 2..=8 {
        code.extend([0x80 + port, 0x0E]);
    }
    code.extend([0x10, 0xC1]);
    let panel = reference::case::panel(30_000, &[(0, &code)], &[]);
    inputs.push(input("the log of a long run", ports(&panel)));
    inputs
}

/// A 42 before, at and behind the end of a buffer; the same with 3 bytes more; and logs that lost
/// bytes.
fn long_and_wrong() -> Vec<Input> {
    let whole = long_log();
    let last = LONG / RECORD - 1;
    let mut inputs = Vec::new();
    for (place, byte, wrong, ground) in [
        (0, 6, 1, Ground::Port),
        (0, 7, 16, Ground::Value),
        (1, 0, 255, Ground::Cycle),
        (5_000, 6, 9, Ground::Port),
        (5_001, 5, 0, Ground::Cycle),
        (FULL - 1, 7, 16, Ground::Value),
        (FULL - 1, 6, 1, Ground::Port),
        (FULL, 6, 255, Ground::Port),
        (FULL, 3, 0, Ground::Cycle),
        (FULL + 1, 7, 200, Ground::Value),
        (2 * FULL - 1, 6, 9, Ground::Port),
        (2 * FULL, 3, 0, Ground::Cycle),
        (2 * FULL, 7, 16, Ground::Value),
        (last, 3, 0, Ground::Cycle),
        (last, 6, 1, Ground::Port),
    ] {
        let mut log = whole.clone();
        log[place * RECORD + byte] = wrong;
        let name = format!("{ground:?} in record {place} of a long log");
        let torn = [&log[..], &[0, 0, 0]].concat();
        inputs.push(alone(name.clone(), log, ground));
        let name = format!("{name}, and 3 bytes more");
        inputs.push(alone(name, torn, Ground::Length));
    }
    // The same where the log ends with the first buffer, or 3 bytes after it.
    let mut log = whole[..BUFFER].to_vec();
    log[6] = 1;
    let torn = [&log[..], &[0, 0, 0]].concat();
    inputs.push(alone("65,536 bytes, the first port 1", log, Ground::Port));
    inputs.push(alone(
        "65,539 bytes, the first port 1",
        torn,
        Ground::Length,
    ));
    let without = |from: usize, to: usize| [&whole[..from], &whole[to..]].concat();
    inputs.push(alone(
        "a long log torn in its middle",
        without(100_001, 100_004),
        Ground::Length,
    ));
    inputs.push(input(
        "a long log that lost 100 records",
        without(100_000, 100_800),
    ));
    // 3 bytes in its middle, and 5 at its end.
    let mut lost = without(100_003, 100_006);
    lost.truncate(LONG - 8);
    inputs.push(Input {
        due: Due::Refused(42),
        ..input("a long log that lost 3 and 5 bytes", lost)
    });
    inputs
}

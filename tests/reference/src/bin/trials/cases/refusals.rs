//! Refusals: each number, every field above its width, and their order.

use reference::case::Case;
use reference::State;

const LAST_CYCLE: u64 = (1 << 48) - 1;

pub fn cases() -> Vec<Case> {
    let mut cases = roms();
    cases.extend(schedule_lengths());
    cases.extend(records());
    cases.extend(full_schedules());
    cases.extend(fields());
    cases.extend(words());
    cases.extend(limits());
    cases.extend(order());
    cases
}

/// A run that would write, so that a refusal is seen to change nothing.
fn writes(name: impl Into<String>, number: u8) -> Case {
    Case::new(name)
        .rom(0, &[0x95, 0x44, 0x1E, 0x77])
        .log(100)
        .n(20)
        .ends(number)
}

fn roms() -> Vec<Case> {
    [0, 1, 1_999, 2_001, 2_048, 2_100]
        .map(|length| writes(format!("a ROM of {length} bytes"), 21).rom_length(length))
        .to_vec()
}

fn schedule_lengths() -> Vec<Case> {
    let lengths = [
        (40_961, 12),
        (40_970, 12),
        (1, 11),
        (9, 11),
        (11, 11),
        (25, 11),
        (40_959, 11),
        (40_951, 11),
        (40_960, 0),
        (40_950, 0),
        (10, 0),
        (0, 0),
    ];
    let mut cases = Vec::new();
    for (length, number) in lengths {
        let name = format!("a schedule of {length} bytes");
        cases.push(writes(name, number).made_schedule(length, 19, 5, 0));
    }
    cases
}

/// Records with a bad INT or last byte, and cycles that don't rise.
fn records() -> Vec<Case> {
    let schedule = |name: &str, number: u8, changes: &[(u16, u8)]| {
        let mut case = writes(name, number).schedule(&[
            (0, 0x12, 0x34, 1),
            (5, 0x56, 0x78, 0),
            (256, 0x9A, 0xBC, 1),
            (LAST_CYCLE, 0, 0, 1),
        ]);
        for &(address, byte) in changes {
            case = case.schedule_bytes(address, &[byte]);
        }
        case
    };
    vec![
        schedule("four records", 0, &[]),
        schedule("INT 2 in the first", 13, &[(8, 2)]),
        schedule("INT 255 in the last", 13, &[(38, 255)]),
        schedule("last byte 2 in the first", 13, &[(9, 2)]),
        schedule("last byte 255 in the last", 13, &[(39, 255)]),
        schedule("the first cycle again", 14, &[(15, 0)]),
        schedule("a cycle that falls", 14, &[(24, 0), (25, 4)]),
        schedule("the same cycle in another byte", 14, &[(14, 1), (15, 0)]),
        schedule(
            "the last cycle falls",
            14,
            &[(30, 0), (31, 0), (32, 0), (33, 0), (34, 0)],
        ),
        schedule("13 and 14 in one record", 13, &[(15, 0), (18, 2)]),
        schedule("14, then 13", 14, &[(15, 0), (28, 2)]),
        schedule("13, then 14", 13, &[(19, 7), (24, 0), (25, 3)]),
    ]
}

/// The same in the first and last of 4,096 records.
fn full_schedules() -> Vec<Case> {
    vec![
        writes("INT 2 in the last of 4,096", 13)
            .made_schedule(40_960, 5, 9, 3)
            .schedule_bytes(40_958, &[2]),
        writes("the last of 4,096 falls", 14)
            .made_schedule(40_960, 5, 9, 3)
            .schedule_bytes(40_950, &[0; 6]),
        writes("the first of 4,096 isn't below the second", 14)
            .made_schedule(40_960, 5, 9, 3)
            .schedule_bytes(0, &[255; 6]),
    ]
}

/// A change of the start state.
type Change = fn(&mut State);

/// Every field but RAM words, one above its width or more.
const FIELDS: [(&str, Change); 37] = [
    ("PC 2048", |s| s.pc = 2_048),
    ("PC 65535", |s| s.pc = 65_535),
    ("stack 0", |s| s.stack[0] = 2_048),
    ("stack 1", |s| s.stack[1] = 2_048),
    ("stack 2", |s| s.stack[2] = 2_048),
    ("Acc 16", |s| s.acc = 16),
    ("Acc 255", |s| s.acc = 255),
    ("C 2", |s| s.carry = 2),
    ("C' 2", |s| s.saved = 2),
    ("DPH 8", |s| s.dph = 8),
    ("DPL 16", |s| s.dpl = 16),
    ("INT 2", |s| s.int = 2),
    ("INTE 2", |s| s.inte = 2),
    ("TM 2", |s| s.tm = 2),
    ("level 2", |s| s.level = 2),
    ("level 255", |s| s.level = 255),
    ("mark 5", |s| s.mark = 5),
    ("mark 255", |s| s.mark = 255),
    ("owed 4", |s| s.owed = 4),
    ("owed 255", |s| s.owed = 255),
    ("register 64", |s| s.register = 64),
    ("register 255", |s| s.register = 255),
    ("counter 64", |s| (s.register, s.counter) = (1, 64)),
    ("counter 255", |s| (s.register, s.counter) = (63, 255)),
    ("counter 1, timer stopped", |s| s.counter = 1),
    ("counter 63, timer stopped", |s| s.counter = 63),
    ("C latch 16", |s| s.ports[0] = 16),
    ("D latch 16", |s| s.ports[1] = 16),
    ("E latch 16", |s| s.ports[2] = 16),
    ("F latch 16", |s| s.ports[3] = 16),
    ("G latch 16", |s| s.ports[4] = 16),
    ("H latch 16", |s| s.ports[5] = 16),
    ("I latch 8", |s| s.ports[6] = 8),
    ("I latch 15", |s| s.ports[6] = 15),
    ("cycle number 2^48", |s| s.cycle = 1 << 48),
    ("cycle number 2^64 - 1", |s| s.cycle = u64::MAX),
    ("cycle number 2^48 and owed 4", |s| {
        (s.cycle, s.owed) = (1 << 48, 4)
    }),
];

fn fields() -> Vec<Case> {
    let mut cases = Vec::new();
    for (name, change) in FIELDS {
        cases.push(writes(name, 34).with(change));
        if name.starts_with("PC") {
            cases.push(writes(format!("{name}, n 0"), 34).with(change).n(0));
        }
    }
    cases
}

/// A RAM word above its width, at several places.
fn words() -> Vec<Case> {
    let mut cases = Vec::new();
    for place in [0, 1, 15, 16, 47, 63, 79, 80, 94, 95] {
        for value in [15, 16, 255] {
            let number = if value > 15 { 34 } else { 0 };
            cases.push(writes(format!("RAM word {place} is {value}"), number).ram(place, &[value]));
        }
    }
    cases
}

/// 2, just below it, and n at its highest. Where the run isn't refused it stops at a code 1C.
fn limits() -> Vec<Case> {
    let run = |cycle: u64, n: u64, number: u8| {
        Case::new(format!("cycle number {cycle}, n {n}"))
            .rom(0, &[0x92, 0x44, 0x1C])
            .with(|state| state.cycle = cycle)
            .n(n)
            .ends(number)
    };
    vec![
        run(0, LAST_CYCLE, 23),
        run(0, 1 << 48, 2),
        run(0, u64::MAX, 2),
        run(1, LAST_CYCLE, 2),
        run(1, LAST_CYCLE - 1, 23),
        run(1, u64::MAX, 2),
        run(LAST_CYCLE, 0, 0),
        run(LAST_CYCLE, 1, 2),
        run(LAST_CYCLE, u64::MAX, 2),
        run(LAST_CYCLE - 1, 1, 0),
        run(LAST_CYCLE - 1, 2, 2),
        run(LAST_CYCLE - 3, 3, 0),
        run(0, 0, 0),
    ]
}

/// Calls that deserve several numbers: "A run checks 21, 12, 11, 13/14, 34, 2".
fn order() -> Vec<Case> {
    let bad = |name: &str, number: u8| {
        writes(name, number)
            .with(|state| state.acc = 16)
            .n(u64::MAX)
    };
    vec![
        bad("21 before 12, 34 and 2", 21)
            .rom_length(1_999)
            .made_schedule(40_970, 3, 3, 0),
        bad("21 before 11, 34 and 2", 21)
            .rom_length(2_001)
            .made_schedule(19, 3, 3, 0),
        bad("21 before 13, 34 and 2", 21)
            .rom_length(0)
            .schedule(&[(0, 0, 0, 9)]),
        bad("12 before 11, 34 and 2", 12).made_schedule(40_961, 3, 3, 0),
        bad("12 before 13, 34 and 2", 12)
            .made_schedule(40_970, 3, 3, 0)
            .schedule_bytes(8, &[2]),
        bad("11 before 13, 34 and 2", 11)
            .made_schedule(25, 3, 3, 0)
            .schedule_bytes(8, &[2]),
        bad("11 before 14, 34 and 2", 11)
            .made_schedule(25, 3, 3, 9)
            .schedule_bytes(10, &[0; 6]),
        bad("13 before 34 and 2", 13).schedule(&[(0, 0, 0, 2)]),
        bad("14 before 34 and 2", 14).schedule(&[(7, 0, 0, 1), (7, 0, 0, 1)]),
        bad("34 before 2", 34),
        bad("34 with n 0", 34).n(0),
        writes("2 alone", 2).n(u64::MAX),
    ]
}

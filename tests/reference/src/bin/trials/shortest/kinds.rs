//! The groups whose panels are made by hand, by kind.

use reference::asking::{asking, rows, values_from, ASKS};
use reference::case::{highest, lines, schedule};
use reference::sheets::HALF;
use reference::{Sheet, State};

use super::group::{Call, Group};

const LAST_CYCLE: u64 = (1 << 48) - 1;
const N: u64 = 40;

/// The most cycles that the program's log has 16 bytes for, and the most records.
const MOST_CYCLES: u64 = 4_096;
const MOST_RECORDS: usize = 4_096;

/// Port A finishes with 0, stops with 23 for 1 and 3, with 22 for 2.
const ENDS: [u8; 4] = [0, 23, 22, 23];

/// TPB 0, JCP 000 and a code that is none: it halts when bit 0 of A is 1.
const POLL: [u8; 3] = [0x50, 0xC0, 0x1C];

fn asked(ends: [u8; 4], values: &[u8]) -> Call {
    Call::new(&asking(ends), values_from(0, values), N)
}

/// Single calls: each number alone, and each before all those that come after it; and answers of either number, by none of the records,
/// some and all.
pub fn numbers() -> Vec<Group> {
    type Change = fn(&mut Call);
    let faults: [(u8, Change); 10] = [
        (82, |call| call.schedule.extend(values_from(9, &[0]))),
        (81, |call| call.log -= 1),
        (2, |call| call.n = LAST_CYCLE + 1),
        (34, |call| {
            call.state.ram[79] = 1;
            call.state.stack[2] = 1;
        }),
        (14, |call| call.schedule.extend(values_from(0, &[1]))),
        (13, |call| call.schedule[9] = 2),
        (11, |call| call.schedule.push(0)),
        (12, |call| call.schedule.resize(40_965, 0)),
        (21, |call| call.rom.push(0)),
        (71, |call| call.sheet.levels |= 256),
    ];
    let sound = asked(ENDS, &[0, 2, 1]).under(HALF);
    let mut all = sound.clone();
    let mut groups = Vec::new();
    let mut add = |words: String, call: &Call, number: u8| {
        groups.push(Group::new(words, vec![call.clone()], &[number]));
    };
    for (number, change) in faults {
        add(format!("{number} alone"), &sound.with(change), number);
        change(&mut all);
        if number != 82 {
            add(format!("{number} before those after it"), &all, number);
        }
    }
    for (words, call, number) in [
        ("none of no records", asked([23, 0, 0, 0], &[]), 23),
        ("none of no records", asked([22, 0, 0, 0], &[]), 22),
        ("none of three", asked([22, 0, 23, 0], &[1, 2, 0]), 22),
        ("some", asked(ENDS, &[0, 1, 0, 1]), 23),
        ("all", asked(ENDS, &[1, 0, 1, 2]), 22),
        ("no cycles", Call::new(&[0x1C], values_from(0, &[1]), 0), 82),
        (
            "no cycles and no records",
            Call::new(&[0x1C], Vec::new(), 0),
            82,
        ),
        ("the first cycle", Call::new(&[0x1C], Vec::new(), 1), 23),
        ("a beginning that stops", asked(ENDS, &[1, 0]), 82),
        ("no log", asked(ENDS, &[1]).with(|call| call.log = 0), 81),
        (
            "no log, and a stop at once",
            Call::new(&[0x45], Vec::new(), 1).with(|call| call.log = 15),
            81,
        ),
        (
            "the most cycles",
            asked(ENDS, &[1]).with(|call| call.n = LAST_CYCLE),
            81,
        ),
        (
            "one cycle more",
            asked(ENDS, &[1]).with(|call| call.n = LAST_CYCLE + 1),
            2,
        ),
        (
            "16n is 0 in 64 bits",
            asked(ENDS, &[1]).with(|call| call.n = 1 << 60),
            2,
        ),
        (
            "16n is 0 in 48 bits",
            asked(ENDS, &[1]).with(|call| call.n = 1 << 44),
            81,
        ),
    ] {
        add(format!("{words}, {number}"), &call, number);
    }
    groups
}

/// Every row of up to five records, of which each either stops with one of two numbers or goes round.
pub fn rows_of_ends() -> Vec<Group> {
    let mut groups = Vec::new();
    for ends in [ENDS, [23, 0, 22, 0], [22, 23, 0, 0]] {
        for records in 0..=5 {
            let calls = rows(records, 3)
                .iter()
                .map(|values| asked(ends, values))
                .collect();
            let name = format!("rows of {records} records, no record ends with {}", ends[0]);
            let due: &[u8] = match (records, ends[0]) {
                (0, 0) => &[82],
                (0, 22) => &[22],
                (0, _) => &[23],
                _ => &[22, 23, 82],
            };
            groups.push(Group::new(name, calls, due));
        }
    }
    groups
}

/// Each n up to past every stop: at its cycle the run finishes, and one above it stops. A trial that would stop later finishes.
pub fn ends() -> Vec<Group> {
    // TPA 0, JCP 000, TPA 1, JCP 008, 1C; STM 1, TTM, JCP 00A, 45: by one button it stops at once, by the other when the timer has run out.
    let late = [
        0x54, 0xC0, 0x55, 0xC8, 0x1C, 0, 0, 0, 0x14, 0x81, 0x05, 0xCA, 0x45,
    ];
    // OCD, TPB 0, JCP 000, JMP 7FF.
    let writes = [0x1E, 0xA5, 0x50, 0xC0, 0xA7, 0xFF];
    let pulses = schedule(&[(0, 0x10, 0, 1), (1, 0x30, 0, 1), (60, 0, 0, 1)]);
    let resets = lines(&[
        (3, 0, 0, 1, 1),
        (20, 0x10, 0, 1, 1),
        (40, 0x10, 0, 1, 0),
        (41, 0, 0, 1, 0),
        (60, 0x10, 0, 1, 0),
    ]);
    let panels = [
        (
            "an asking panel",
            Call::new(&asking(ENDS), values_from(0, &[0, 1, 0, 1]), 0),
            23,
        ),
        ("a stop that may be late", Call::new(&late, pulses, 0), 23),
        (
            "a panel that writes",
            Call::new(&writes, values_from(20, &[0, 1, 0, 0, 1]), 0),
            22,
        ),
        ("a panel that is reset", Call::new(&POLL, resets, 0), 23),
    ];
    let each_n = |(words, call, number): (&str, Call, u8)| {
        let calls = (0..=150).map(|n| call.cycles(n)).collect();
        Group::new(format!("{words}, each n"), calls, &[number, 82])
    };
    panels.into_iter().map(each_n).collect()
}

/// Panels of a later cycle, with none to eight of eight records before it: the last of them holds at once.
pub fn before() -> Vec<Group> {
    let values = [
        [0, 0, 1, 0, 2, 0, 0, 1],
        [1, 0, 0, 0, 0, 0, 0, 1],
        [2, 2, 1, 1, 2, 2, 0, 2],
        [0, 0, 0, 0, 0, 0, 0, 2],
        [1, 2, 1, 2, 1, 2, 1, 0],
    ];
    let mut groups = Vec::new();
    for early in 0..=8 {
        let mut calls = Vec::new();
        for cycle in [8, 9, 1_000, LAST_CYCLE - 100] {
            for values in values {
                for ends in [ENDS, [23, 0, 22, 0]] {
                    let call = Call::new(&asking(ends), values_from(cycle - early, &values), N);
                    calls.push(call.with(|call| call.state.cycle = cycle));
                    // All of them long before it.
                    let old = Call::new(&asking(ends), values_from(0, &values), N);
                    calls.push(old.with(|call| call.state.cycle = cycle + early));
                }
            }
        }
        groups.push(Group::new(
            format!("{early} records before the panel"),
            calls,
            &[22, 23, 82],
        ));
    }
    groups
}

/// Logs of each length around 16n, of panels that write as much as can be and of such that write nothing.
pub fn logs() -> Vec<Group> {
    // OCD, TPB 0, JCP 000 and a code that is none; the same without OCD; OCD at once, and again.
    let panels: [(&str, &[u8]); 3] = [
        ("a panel that writes", &[0x1E, 0xA5, 0x50, 0xC0, 0x1C]),
        ("a panel that writes nothing", &POLL),
        (
            "a panel that writes at once",
            &[0x1E, 0xA5, 0x1E, 0x5A, 0x1C],
        ),
    ];
    let mut groups = Vec::new();
    for (words, code) in panels {
        for n in [30, 100] {
            let call = Call::new(code, values_from(3, &[0, 1]), n);
            let lengths = (0..=call.log)
                .step_by(37)
                .chain(call.log - 20..=call.log + 20);
            let calls = lengths
                .map(|log| call.with(|call| call.log = log))
                .collect();
            groups.push(Group::new(
                format!("{words}, {n} cycles, logs"),
                calls,
                &[23, 81],
            ));
        }
    }
    let reset: Vec<_> = (0..20)
        .flat_map(|k| [(5 * k, 0, 0, 1, 1), (5 * k + 4, 0, 0, 1, 0)])
        .collect();
    let calls = (0..=100)
        .map(|n| Call::new(&[0x1E, 0xA5, 0xC0], lines(&reset), n))
        .collect();
    groups.push(Group::new("resets that cut OCD short", calls, &[82]));
    groups
}

/// As many records and cycles as may be: the first, one in the middle, and the last of the records matter; or none stops it.
pub fn longest() -> Vec<Group> {
    let call = |matters: usize| {
        let value = |k: usize| u8::from(k + 1 >= matters);
        let values: Vec<u8> = (0..MOST_RECORDS).map(value).collect();
        // It asks in every second cycle.
        Call::new(&POLL, values_from(0, &values), MOST_CYCLES)
    };
    let calls = vec![
        call(1),
        call(2_001),
        call(MOST_RECORDS - 3),
        call(MOST_RECORDS + 1),
        call(MOST_RECORDS - 3).with(|call| call.log -= 1),
    ];
    vec![Group::new("4,096 records and cycles", calls, &[23, 81, 82])]
}

/// The highest state there is, at a cycle from which n cycles are done.
pub fn high() -> State {
    State {
        cycle: ASKS,
        ..highest()
    }
}

/// What a sheet hasn't is 34; one that has all of the state isn't refused for it.
pub fn misses(sheet: Sheet) -> bool {
    sheet.rows != 31 || sheet.levels != 3
}

//! Logs made by hand: what one record does, and each ground that the log itself can give.

use reference::log::RECORD;
use reference::waiting::{Ground, LAMPS};

use crate::case::{log, Case, Due, Source, LONGEST};

const LAST_CYCLE: u64 = (1 << 48) - 1;

pub fn cases() -> Vec<Case> {
    let mut cases = by_hand();
    cases.extend(ports());
    cases.extend(values());
    cases.extend(pairs());
    cases.extend(cycles());
    cases.extend(damaged());
    cases.extend(lengths());
    cases
}

fn empty(name: impl Into<String>, records: &[(u64, u8, u8)]) -> Case {
    Case::new(name, Source::Empty, log(records))
}

/// Writes to the lamps alone: cycle and value.
fn lamps(name: &str, writes: &[(u64, u8)]) -> Case {
    let records: Vec<(u64, u8, u8)> = writes
        .iter()
        .map(|&(cycle, value)| (cycle, LAMPS, value))
        .collect();
    empty(name, &records)
}

fn by_hand() -> Vec<Case> {
    vec![
        empty("no record", &[]),
        lamps("a wait", &[(10, 1), (60, 0)]),
        lamps("two waits", &[(10, 1), (60, 0), (200, 1), (300, 0)]),
        lamps("an open wait", &[(10, 1)]),
        lamps("the last record opens", &[(10, 1), (60, 0), (61, 1)]),
        lamps("the last record closes one of two", &[(10, 3), (60, 2)]),
        lamps("a wait from cycle 0", &[(0, 15), (7, 0)]),
        lamps(
            "a wait from cycle 0 to the last",
            &[(0, 15), (LAST_CYCLE, 0)],
        ),
        lamps(
            "a wait in the last cycle",
            &[(LAST_CYCLE, 6), (LAST_CYCLE, 0)],
        ),
        lamps("a wait of 0 cycles", &[(9, 4), (9, 0)]),
        lamps(
            "three of 0 cycles",
            &[(9, 4), (9, 0), (9, 4), (9, 0), (9, 4), (9, 0)],
        ),
        lamps("lit twice", &[(10, 2), (20, 2), (30, 0)]),
        lamps("dark twice", &[(10, 2), (20, 0), (30, 0)]),
        lamps("dark from the beginning", &[(10, 0), (20, 0)]),
        lamps(
            "the longest comes first",
            &[(0, 1), (50, 0), (60, 1), (70, 0)],
        ),
        lamps(
            "the longest comes last",
            &[(0, 1), (5, 0), (60, 1), (70, 0)],
        ),
        lamps(
            "the longest stands between two",
            &[(0, 8), (3, 0), (4, 8), (14, 0), (15, 8), (20, 0)],
        ),
        lamps(
            "two that are equally long",
            &[(0, 1), (5, 0), (6, 1), (11, 0)],
        ),
        lamps(
            "an open one that is longer",
            &[(0, 1), (5, 0), (6, 1), (9_000, 3)],
        ),
        lamps(
            "four that begin at once",
            &[(10, 15), (20, 14), (30, 12), (40, 8), (50, 0)],
        ),
        lamps(
            "four that end at once",
            &[(10, 1), (20, 3), (30, 7), (40, 15), (50, 0)],
        ),
        lamps(
            "one after the other",
            &[(10, 1), (20, 2), (30, 4), (40, 8), (50, 0)],
        ),
        lamps("in turns", &[(10, 5), (25, 10), (30, 5), (70, 10)]),
        empty(
            "other ports alone",
            &[
                (1, 2, 15),
                (2, 3, 15),
                (3, 4, 15),
                (4, 6, 15),
                (5, 7, 15),
                (6, 8, 7),
            ],
        ),
        empty(
            "other ports between",
            &[(1, 5, 9), (2, 4, 0), (2, 6, 0), (7, 5, 8), (9, 7, 15)],
        ),
        empty(
            "OCD's two records",
            &[
                (3, 2, 5),
                (3, 3, 10),
                (3, 5, 1),
                (5, 2, 5),
                (5, 3, 10),
                (6, 5, 0),
            ],
        ),
    ]
}

/// Each port, in a log of one record.
fn ports() -> Vec<Case> {
    let one = |port: u8| {
        let case = empty(format!("port {port}"), &[(1, port, 1)]);
        match port {
            2..=8 => case,
            // The record of a reset, which has value 0.
            0 => case.alone(Ground::Value),
            _ => case.alone(Ground::Port),
        }
    };
    (0..=255).map(one).collect()
}

/// Each value of ports F and I, and some of the others.
fn values() -> Vec<Case> {
    let some = [0, 1, 7, 8, 9, 15, 16, 17, 31, 32, 64, 128, 240, 255];
    let mut cases = Vec::new();
    for port in 2..=8 {
        let highest = if port == 8 { 7 } else { 15 };
        let values = if matches!(port, 5 | 8) {
            (0..=255).collect()
        } else {
            some.to_vec()
        };
        for value in values {
            let case = empty(format!("{value} on port {port}"), &[(1, port, value)]);
            cases.push(if value <= highest {
                case
            } else {
                case.alone(Ground::Value)
            });
        }
    }
    cases
}

/// The lamps before and after a write, all of them.
fn pairs() -> Vec<Case> {
    let one = |pair: u8| {
        let (before, after) = (pair >> 4, pair & 15);
        let name = format!("lamps {before:04b}, then {after:04b}");
        lamps(&name, &[(10, before), (25, after)])
    };
    (0..=255).map(one).collect()
}

/// Two cycles that differ by 1 or are equal, at the borders of the bytes.
fn cycles() -> Vec<Case> {
    let mut cases = Vec::new();
    for bits in [0, 8, 16, 24, 32, 40] {
        let first: u64 = 1 << bits;
        let of = |next: u64| {
            lamps(
                &format!("cycle {first}, then {next}"),
                &[(first, 1), (next, 0)],
            )
        };
        cases.push(of(first - 1).alone(Ground::Cycle));
        cases.push(of(first));
        cases.push(of(first + 1));
        cases.push(of(0).alone(Ground::Cycle));
        cases.push(of(LAST_CYCLE));
    }
    cases.push(
        lamps(
            "cycle 2^48 - 1, then one less",
            &[(LAST_CYCLE, 1), (LAST_CYCLE - 1, 0)],
        )
        .alone(Ground::Cycle),
    );
    cases.push(
        empty(
            "a lower cycle of another port",
            &[(9, 5, 1), (8, 2, 1), (9, 5, 0)],
        )
        .alone(Ground::Cycle),
    );
    cases.push(
        empty(
            "a cycle that is lower than the last one of its port",
            &[(9, 5, 1), (12, 2, 1), (10, 5, 0)],
        )
        .alone(Ground::Cycle),
    );
    cases
}

/// One record of a sound log damaged, each in turn.
fn damaged() -> Vec<Case> {
    let sound = [
        (100, 2, 15),
        (200, 5, 9),
        (200, 3, 4),
        (350, 5, 6),
        (900, 8, 7),
        (901, 5, 0),
    ];
    let mut cases = vec![empty("a log to be damaged", &sound)];
    let mut push = |place: usize, what: String, record: (u64, u8, u8), due: Due| {
        let mut records = sound;
        records[place] = record;
        cases.push(empty(format!("record {place}: {what}"), &records).due(due));
    };
    for (place, (cycle, port, value)) in sound.into_iter().enumerate() {
        for wrong in [1, 9, 10, 13, 128, 255] {
            let due = Due::Alone(Ground::Port);
            push(
                place,
                format!("port {wrong}"),
                (cycle, wrong, value & 7),
                due,
            );
        }
        for wrong in [16, 16 + value, 255] {
            let due = Due::Alone(Ground::Value);
            push(place, format!("value {wrong}"), (cycle, port, wrong), due);
        }
        push(place, String::from("a reset"), (cycle, 0, 0), Due::Accepted);
        push(
            place,
            String::from("1 on port 0"),
            (cycle, 0, 1),
            Due::Alone(Ground::Value),
        );
        push(
            place,
            String::from("8 on I"),
            (cycle, 8, 8),
            Due::Alone(Ground::Value),
        );
        push(place, String::from("7 on I"), (cycle, 8, 7), Due::Accepted);
        push(
            place,
            String::from("15 on H"),
            (cycle, 7, 15),
            Due::Accepted,
        );
        if place > 0 {
            let before = sound[place - 1].0;
            push(
                place,
                String::from("the cycle before"),
                (before, port, value),
                Due::Accepted,
            );
            for wrong in [before - 1, 0] {
                let due = Due::Alone(Ground::Cycle);
                push(place, format!("cycle {wrong}"), (wrong, port, value), due);
            }
            push(
                place,
                String::from("port and cycle"),
                (0, 1, value),
                Due::Refused(42),
            );
            push(
                place,
                String::from("value and cycle"),
                (0, 5, 16),
                Due::Refused(42),
            );
            push(
                place,
                String::from("port, value and cycle"),
                (0, 9, 99),
                Due::Refused(42),
            );
        }
        push(
            place,
            String::from("port and value"),
            (cycle, 1, 200),
            Due::Refused(42),
        );
    }
    cases
}

/// 41 by the length alone, also where a record has a ground of 42.
fn lengths() -> Vec<Case> {
    let sound = log(&[(3, 5, 5), (3, 2, 5), (4, 5, 15), (9, 8, 7), (10, 5, 0)]);
    let mut first = sound.clone();
    first[6] = 1;
    let mut third = sound.clone();
    third[2 * RECORD + 7] = 16;
    let mut cases = Vec::new();
    for length in 0..=sound.len() {
        let of = |name: &str, log: &[u8], due: Due| {
            let name = format!("{name}, {length} bytes");
            let case = Case::new(name, Source::Empty, log[..length].to_vec());
            if length % RECORD == 0 {
                case.due(due)
            } else {
                case.alone(Ground::Length)
            }
        };
        let wrong = |place: usize, ground: Ground| {
            if length > place * RECORD {
                Due::Alone(ground)
            } else {
                Due::Accepted
            }
        };
        cases.push(of("a sound log", &sound, Due::Accepted));
        cases.push(of("port 1 at first", &first, wrong(0, Ground::Port)));
        cases.push(of(
            "16 in the third record",
            &third,
            wrong(2, Ground::Value),
        ));
    }
    // The longest: 500 records.
    let long: Vec<(u64, u8, u8)> = (0..500).map(|k| (3 * k, 5, (k * 7 % 16) as u8)).collect();
    let long = log(&long);
    assert_eq!(long.len(), LONGEST);
    for length in [LONGEST, LONGEST - 1, LONGEST - 7] {
        let case = Case::new(
            format!("{length} bytes"),
            Source::Empty,
            long[..length].to_vec(),
        );
        cases.push(if length == LONGEST {
            case
        } else {
            case.alone(Ground::Length)
        });
    }
    cases
}

//! What is carried, sound and damaged in each way.

use reference::waiting::{Carried, Ground, Landing, LANDINGS, LARGEST};

use crate::case::{log, Case, Due, Source};

const LAST_CYCLE: u64 = (1 << 48) - 1;

pub fn cases() -> Vec<Case> {
    let mut cases = figures();
    cases.extend(last_cycles());
    cases.extend(lamps());
    cases.extend(starts());
    cases.extend(marks());
    cases.extend(first_records());
    cases.extend(not_named());
    cases.extend(before_the_records());
    cases.extend(risen());
    cases
}

/// Landing 0 had waits of 50 and 100 cycles, landing 1 is lit since 900, landing 3 since the last
/// cycle.
pub fn morning() -> Carried {
    let mut carried = Carried::default();
    carried.landings[0] = closed(2, 150, 100);
    light(&mut carried, 1, 900);
    light(&mut carried, 3, 1_000);
    carried.last = 1_000;
    carried
}

/// Landing 0 is lit since the first cycle, landing 2 since the last one.
pub fn evening() -> Carried {
    let mut carried = Carried {
        landings: [
            closed(2, 300, 200),
            closed(5, 900, 400),
            closed(0, 0, 0),
            closed(1, 69_000, 69_000),
        ],
        lamps: 0,
        last: 70_000,
    };
    light(&mut carried, 0, 0);
    light(&mut carried, 2, 70_000);
    carried
}

fn closed(closed: u64, cycles: u64, longest: u64) -> Landing {
    Landing {
        closed,
        cycles,
        longest,
        ..Landing::default()
    }
}

fn light(carried: &mut Carried, place: usize, start: u64) {
    carried.landings[place].open = 1;
    carried.landings[place].start = start;
    carried.lamps |= 1 << place;
}

fn is_lit(carried: &Carried, place: usize) -> bool {
    carried.lamps >> place & 1 == 1
}

fn bases() -> [(&'static str, Carried); 2] {
    [("morning", morning()), ("evening", evening())]
}

/// Read on with these records.
fn given(name: String, carried: Carried, records: &[(u64, u8, u8)]) -> Case {
    Case::new(name, Source::Given(carried), log(records))
}

/// A figure by its name.
type Figure = (&'static str, fn(&mut Landing) -> &mut u64);

const FIGURES: [Figure; 3] = [
    ("closed", |landing| &mut landing.closed),
    ("cycles", |landing| &mut landing.cycles),
    ("longest", |landing| &mut landing.longest),
];

/// Each figure of each landing around 2^60; of the evening's, all waits are closed then.
fn figures() -> Vec<Case> {
    let mut cases = Vec::new();
    for (base, carried) in bases() {
        let records: &[(u64, u8, u8)] = match base {
            "evening" => &[(70_020, 5, 0)],
            _ => &[],
        };
        for place in 0..LANDINGS {
            for (figure, of) in FIGURES {
                for value in [LARGEST, LARGEST + 1, 1 << 61, 1 << 63, u64::MAX] {
                    let mut carried = carried;
                    *of(&mut carried.landings[place]) = value;
                    let name = format!("{base}: {figure} of landing {place} is {value}");
                    let case = given(name, carried, records);
                    cases.push(if value == LARGEST {
                        case
                    } else {
                        case.alone(Ground::Figure)
                    });
                }
            }
        }
    }
    cases
}

/// The last cycle around 2^48, where no record can follow, and around 2^60.
fn last_cycles() -> Vec<Case> {
    let mut cases = Vec::new();
    for last in [
        LAST_CYCLE - 1,
        LAST_CYCLE,
        1 << 48,
        (1 << 48) + 1,
        LARGEST - 1,
        LARGEST,
        LARGEST + 1,
        1 << 61,
        u64::MAX,
    ] {
        let carried = Carried { last, ..morning() };
        let name = format!("last cycle {last}");
        let alone = given(name.clone(), carried, &[]);
        let before = given(
            format!("{name} and a record"),
            carried,
            &[(LAST_CYCLE, 5, 0)],
        );
        cases.extend(if last > LARGEST {
            [alone, before].map(|case| case.alone(Ground::Figure))
        } else if last > LAST_CYCLE {
            [alone, before.alone(Ground::Cycle)]
        } else {
            [alone, before]
        });
    }
    cases
}

/// All lamps up to 15, with marks and starts; and bits above them.
fn lamps() -> Vec<Case> {
    let lit = |lamps: u8| {
        let mut carried = Carried {
            last: 50,
            ..Carried::default()
        };
        for place in 0..LANDINGS {
            if lamps >> place & 1 == 1 {
                light(&mut carried, place, 10 * place as u64 + 20);
            }
        }
        Carried { lamps, ..carried }
    };
    let mut cases = Vec::new();
    for lamps in 0..=15 {
        cases.push(given(format!("lamps {lamps}"), lit(lamps), &[(60, 5, 0)]));
    }
    for lamps in [16, 17, 21, 31, 32, 42, 47, 64, 79, 128, 143, 240, 255] {
        let case = given(format!("lamps {lamps}"), lit(lamps), &[(60, 5, 0)]);
        cases.push(case.alone(Ground::Lamps));
    }
    cases
}

/// Each landing's start, around 0, the last cycle and 2^60.
fn starts() -> Vec<Case> {
    let mut cases = Vec::new();
    for (base, carried) in bases() {
        let last = carried.last;
        for place in 0..LANDINGS {
            let dues = if is_lit(&carried, place) {
                vec![
                    (0, Due::Accepted),
                    (1, Due::Accepted),
                    (last - 1, Due::Accepted),
                    (last, Due::Accepted),
                    (last + 1, Due::Alone(Ground::Start)),
                    (LARGEST, Due::Alone(Ground::Start)),
                    (LARGEST + 1, Due::Refused(41)),
                    (u64::MAX, Due::Refused(41)),
                ]
            } else {
                vec![
                    (1, Due::Alone(Ground::DarkStart)),
                    (last, Due::Alone(Ground::DarkStart)),
                    (last + 1, Due::Refused(41)),
                    (u64::MAX, Due::Refused(41)),
                ]
            };
            for (start, due) in dues {
                let mut carried = carried;
                carried.landings[place].start = start;
                let name = format!("{base}: start of landing {place} is {start}");
                cases.push(given(name, carried, &[(last + 5, 5, 0)]).due(due));
            }
        }
    }
    // A start and the last cycle together.
    for (value, due) in [
        (LARGEST, Due::Accepted),
        (LARGEST + 1, Due::Alone(Ground::Figure)),
    ] {
        let mut carried = morning();
        carried.landings[1].start = value;
        carried.last = value;
        cases.push(given(format!("a start and the last cycle {value}"), carried, &[]).due(due));
    }
    cases
}

/// Each mark of each set of lamps turned over; marks of 2 and above; all marks wrong.
fn marks() -> Vec<Case> {
    let mut cases = Vec::new();
    let mut push = |name: String, carried: Carried| {
        let case = given(name, carried, &[(80_000, 5, 0)]);
        cases.push(case.alone(Ground::OpenMark));
    };
    for lamps in 0..=15_u8 {
        for place in 0..LANDINGS {
            let mut carried = Carried::default();
            for lit in 0..LANDINGS {
                if lamps >> lit & 1 == 1 {
                    light(&mut carried, lit, 0);
                }
            }
            carried.landings[place].open ^= 1;
            push(
                format!("lamps {lamps:04b}, mark {place} turned over"),
                carried,
            );
        }
    }
    for (base, carried) in bases() {
        for place in 0..LANDINGS {
            for mark in [2, 3, 128, 254, 255] {
                let mut carried = carried;
                carried.landings[place].open = mark;
                push(
                    format!("{base}: mark of landing {place} is {mark}"),
                    carried,
                );
            }
        }
        let mut carried = carried;
        for landing in &mut carried.landings {
            landing.open ^= 1;
        }
        push(format!("{base}: all marks turned over"), carried);
    }
    cases
}

/// The first record's cycle against the last one carried.
fn first_records() -> Vec<Case> {
    let mut cases = Vec::new();
    for last in [1_000, 1 << 16, 1 << 32, LAST_CYCLE - 1] {
        let carried = Carried { last, ..morning() };
        for (cycle, due) in [
            (0, Due::Alone(Ground::Cycle)),
            (last - 1, Due::Alone(Ground::Cycle)),
            (last, Due::Accepted),
            (last + 1, Due::Accepted),
        ] {
            for port in [2, 5] {
                let name = format!("last cycle {last}, then {cycle} on port {port}");
                cases.push(given(name, carried, &[(cycle, port, 4)]).due(due));
            }
        }
    }
    cases
}

/// "a figure is above 2^60, lamps above 15, a start above the last cycle, a dark lamp's start not 0 or
/// an open mark unlike its lamp", and nothing else.
fn not_named() -> Vec<Case> {
    let of = |name: &str, landing: Landing| {
        let mut carried = morning();
        carried.landings[2] = landing;
        [
            given(name.to_string(), carried, &[]),
            given(
                format!("{name}, then a wait"),
                carried,
                &[(2_000, 5, 4), (2_030, 5, 0)],
            ),
        ]
    };
    let mut all = evening();
    for landing in &mut all.landings {
        *landing = Landing {
            open: landing.open,
            start: landing.start,
            ..closed(LARGEST, LARGEST, LARGEST)
        };
    }
    let mut cases = Vec::new();
    cases.extend(of("longest above cycles", closed(1, 10, 11)));
    cases.extend(of("cycles without a closed wait", closed(0, 77, 0)));
    cases.extend(of("longest without a closed wait", closed(0, 0, 20)));
    cases.extend(of("closed waits of 0 cycles", closed(9, 0, 0)));
    cases.extend(of(
        "more cycles than the last cycle",
        closed(1, 1 << 50, 1 << 50),
    ));
    cases.push(given(String::from("all figures 2^60"), all, &[]));
    cases.push(given(
        String::from("all figures 2^60, then dark"),
        all,
        &[(LAST_CYCLE, 5, 0)],
    ));
    cases
}

/// A damage by its ground.
type Damage = (Ground, fn(&mut Carried));

/// 41 of what is carried comes before any 42.
fn before_the_records() -> Vec<Case> {
    let damages: [Damage; 5] = [
        (Ground::Figure, |carried| {
            carried.landings[3].cycles = LARGEST + 1
        }),
        (Ground::Lamps, |carried| carried.lamps |= 16),
        (Ground::Start, |carried| carried.landings[1].start = 1_001),
        (Ground::DarkStart, |carried| carried.landings[2].start = 1),
        (Ground::OpenMark, |carried| carried.landings[0].open = 1),
    ];
    let mut cases = Vec::new();
    for (ground, damage) in damages {
        let mut carried = morning();
        damage(&mut carried);
        for (what, record) in [
            ("a sound record", (2_000, 5, 0)),
            ("port 1", (2_000, 1, 0)),
            ("a reset", (2_000, 0, 0)),
            ("16", (2_000, 5, 16)),
            ("a cycle that falls", (3, 5, 0)),
        ] {
            let name = format!("{ground:?} and {what}");
            cases.push(given(name.clone(), carried, &[record]).alone(ground));
            let mut torn = log(&[record, record]);
            torn.truncate(11);
            let case = Case::new(format!("{name}, torn"), Source::Given(carried), torn);
            cases.push(case.refused(41));
        }
    }
    // A torn log alone.
    for bytes in 1..8 {
        let name = format!("a sound morning and {bytes} bytes");
        let case = Case::new(name, Source::Given(morning()), vec![0; bytes]);
        cases.push(case.alone(Ground::Length));
    }
    cases
}

/// An answer above 2^60: it is given, and is 41 when it is carried on; the two logs joined are
/// accepted. The log after that is read from zeros.
fn risen() -> Vec<Case> {
    let closing = (1_020, 5, 0);
    let later = (1_500, 5, 15);
    let mut cases = Vec::new();
    for place in 0..LANDINGS {
        for (figure, of) in [FIGURES[0], FIGURES[1]] {
            for (below, due) in [
                // A wait of 20 cycles.
                (20, Due::Accepted),
                (1, Due::Accepted),
                (0, Due::Alone(Ground::Figure)),
            ] {
                let mut carried = Carried {
                    last: 1_010,
                    ..Carried::default()
                };
                light(&mut carried, place, 1_000);
                *of(&mut carried.landings[place]) = LARGEST - below;
                let due = match (figure, below) {
                    ("cycles", 1) => Due::Alone(Ground::Figure),
                    _ => due,
                };
                let name = format!("{figure} of landing {place} rises from 2^60 - {below}");
                let joined = given(format!("{name}, joined"), carried, &[closing, later]);
                let first = given(name.clone(), carried, &[closing]);
                let on = Case::new(format!("{name}, read on"), Source::Before, log(&[later]));
                let on = on.due(due);
                cases.extend([
                    joined,
                    first,
                    if due == Due::Accepted { on.same(2) } else { on },
                ]);
                if due != Due::Accepted {
                    let name = format!("{name}, read from zeros");
                    cases.push(Case::new(name, Source::Before, log(&[later])));
                }
            }
        }
    }
    // Without a record, too.
    let mut carried = Carried::default();
    light(&mut carried, 2, 0);
    carried.landings[2].closed = LARGEST;
    cases.extend([
        given(
            String::from("2^60 closed, and one more"),
            carried,
            &[closing],
        ),
        Case::new("2^60 + 1 closed, and no record", Source::Before, Vec::new())
            .alone(Ground::Figure),
        Case::new("no record from zeros", Source::Before, Vec::new()),
    ]);
    cases
}

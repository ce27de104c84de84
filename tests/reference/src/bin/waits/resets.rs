//! Request R-8 with R-1: the record of a reset, port 0 and value 0, "darkens all lamps, closing their waits".

use reference::case::{Case as Panel, FEW_JCP, FEW_JUMPS, INSIDE, NO_STOPS};
use reference::draw::Draw;
use reference::log::{records, Record, RECORD, RESET};
use reference::waiting::Carried;
use reference::waiting::{Ground, Landing, LAMPS, LANDINGS};

use crate::carried::morning;
use crate::case::{cut, log, Case, Source};
use crate::machine::{sliced, tells_enough};
use crate::splits::at_every_record;

const LAST_CYCLE: u64 = (1 << 48) - 1;

/// A ROM on which a run goes on and comes round by many ways.
const LASTING: u8 = NO_STOPS | FEW_JCP | INSIDE | FEW_JUMPS;

/// Drawn ROMs and logs.
const ROMS: usize = 12;
const SOUND: usize = 120;
const DAMAGED: usize = 60;
const CUT: usize = 30;

pub fn cases() -> Vec<Case> {
    let mut cases = by_hand();
    cases.extend(values());
    cases.extend(between_writes());
    cases.extend(of_what_is_carried());
    cases.extend(split());
    cases.extend(machines());
    cases.extend(roms());
    cases.extend(drawn());
    cases
}

fn empty(name: impl Into<String>, records: &[(u64, u8, u8)]) -> Case {
    Case::new(name, Source::Empty, log(records))
}

fn by_hand() -> Vec<Case> {
    vec![
        empty("a reset alone", &[(9, 0, 0)]),
        empty("a reset in cycle 0", &[(0, 0, 0)]),
        empty("resets alone", &[(9, 0, 0), (9, 0, 0), (30, 0, 0)]),
        empty("a reset of a lit lamp", &[(10, 5, 4), (60, 0, 0)]),
        empty("a reset of all lamps", &[(10, 5, 15), (60, 0, 0)]),
        empty(
            "a reset in the cycle that lit them",
            &[(10, 5, 15), (10, 0, 0)],
        ),
        empty(
            "lit in the cycle of a reset",
            &[(10, 5, 15), (20, 0, 0), (20, 5, 6)],
        ),
        empty(
            "a reset that finds them dark",
            &[(10, 5, 3), (20, 5, 0), (30, 0, 0)],
        ),
        empty(
            "dark again after a reset",
            &[(10, 5, 3), (20, 0, 0), (30, 5, 0)],
        ),
        empty(
            "lit by the same value after a reset",
            &[(10, 5, 3), (20, 0, 0), (30, 5, 3), (33, 5, 0)],
        ),
        empty(
            "two resets while lit once",
            &[(10, 5, 8), (20, 0, 0), (30, 0, 0), (40, 5, 0)],
        ),
        empty(
            "other ports and a reset",
            &[(10, 5, 8), (11, 2, 15), (12, 0, 0), (13, 8, 7), (14, 4, 0)],
        ),
        empty("up to the last cycle", &[(0, 5, 15), (LAST_CYCLE, 0, 0)]),
        empty(
            "a reset in the last cycle",
            &[(LAST_CYCLE, 5, 9), (LAST_CYCLE, 0, 0), (LAST_CYCLE, 0, 0)],
        ),
        empty("a cycle that falls, of a reset", &[(10, 5, 1), (9, 0, 0)]).alone(Ground::Cycle),
        empty(
            "a cycle that falls behind a reset",
            &[(10, 0, 0), (9, 5, 0)],
        )
        .alone(Ground::Cycle),
        empty(
            "a value of 1 and a cycle that falls",
            &[(10, 5, 1), (9, 0, 1)],
        )
        .refused(42),
        Case::new(
            "a torn reset",
            Source::Empty,
            log(&[(9, 0, 0)])[..7].to_vec(),
        )
        .alone(Ground::Length),
    ]
}

/// "R-1 takes this port with value 0 only".
fn values() -> Vec<Case> {
    let one = |value: u8| {
        let case = empty(
            format!("{value} on port 0"),
            &[(3, 5, 7), (8, RESET, value)],
        );
        if value == 0 {
            case
        } else {
            case.alone(Ground::Value)
        }
    };
    (0..=17)
        .chain([31, 32, 64, 127, 128, 200, 240, 254, 255])
        .map(one)
        .collect()
}

/// The lamps before a reset and behind it, all of them.
fn between_writes() -> Vec<Case> {
    let one = |pair: u8| {
        let (before, after) = (pair >> 4, pair & 15);
        let name = format!("lamps {before:04b}, a reset, then {after:04b}");
        empty(
            name,
            &[(10, 5, before), (25, 0, 0), (31, 5, after), (70, 5, 0)],
        )
    };
    (0..=255).map(one).collect()
}

/// Waits that were open when the log before ended, and figures at 2^60 that a reset raises.
fn of_what_is_carried() -> Vec<Case> {
    let mut cases = Vec::new();
    for lamps in 0..16 {
        let mut carried = Carried {
            lamps,
            last: 5_000,
            ..Carried::default()
        };
        for place in 0..LANDINGS {
            let lit = lamps >> place & 1;
            carried.landings[place] = Landing {
                closed: 3,
                cycles: 900,
                longest: 400,
                open: lit,
                start: u64::from(lit) * (4_000 + 300 * place as u64),
            };
        }
        for (name, cycle) in [("at once", 5_000), ("later", 5_123)] {
            let name = format!("lamps {lamps:04b} carried, a reset {name}");
            cases.push(Case::new(
                name,
                Source::Given(carried),
                log(&[(cycle, 0, 0)]),
            ));
        }
        let name = format!("lamps {lamps:04b} carried, a reset too early");
        let early = Case::new(name, Source::Given(carried), log(&[(4_999, 0, 0)]));
        cases.push(early.alone(Ground::Cycle));
    }
    let mut carried = morning();
    carried.landings[1].closed = 1 << 60;
    carried.landings[3].cycles = 1 << 60;
    let reset = log(&[(2_000, 0, 0)]);
    cases.push(Case::new(
        "2^60, and a reset",
        Source::Given(carried),
        reset,
    ));
    let above = Case::new("above 2^60 by a reset, read on", Source::Before, Vec::new());
    cases.push(above.alone(Ground::Figure));
    cases
}

/// Split at every record, also where a reset is the first or the last of a part.
fn split() -> Vec<Case> {
    let busy = [
        (3, 5, 0b0001),
        (3, 0, 0),
        (8, 5, 0b0110),
        (9, 0, 0),
        (9, 0, 0),
        (20, 5, 0b1111),
        (21, 2, 7),
        (21, 0, 0),
        (21, 5, 0b0111),
        (40, 5, 0b0101),
        (300, 0, 0),
    ];
    let sound = log(&busy);
    let mut cases = at_every_record("a log with resets", Source::Empty, &sound, None);
    let mut damaged = sound.clone();
    damaged[7 * RECORD + 7] = 1;
    let wrong = Some((7, Ground::Value));
    let name = "1 on port 0 in record 7";
    cases.extend(at_every_record(name, Source::Empty, &damaged, wrong));
    let parts = vec![1; busy.len()];
    cases.extend(cut(
        "resets, record by record",
        Source::Empty,
        &sound,
        &parts,
    ));
    cases
}

/// Panels with call lamps that are reset, and their slices.
fn machines() -> Vec<Case> {
    // LDZ 5, IA, OP, JCP 001, with RES high for 3 to 6 cycles; and a lamp that the timer turns over.
    let lamps = Panel::new("F is line A, with resets")
        .rom(0, &[0x85, 0x40, 0x0E, 0xC1])
        .made_schedule(900, 547, 9, 3)
        .resets(3)
        .n(400);
    let timer = Panel::new("a timer turns F over, with resets")
        .rom(0, &[0x85, 0x14, 0x80, 0x05, 0xC3, 0x10, 0x0E, 0xC1])
        .lines(&[
            (200, 0, 0, 1, 1),
            (203, 0, 0, 1, 0),
            (260, 0, 0, 1, 1),
            (264, 0, 0, 1, 0),
            (500, 0, 0, 1, 1),
            (560, 0, 0, 1, 0),
        ])
        .n(900);
    // LI 15, LDZ 5, OP, JCP 003, held in reset at the end.
    let held = Panel::new("four lamps, held in reset")
        .rom(0, &[0x9F, 0x85, 0x0E, 0xC3])
        .lines(&[(30, 0, 0, 1, 1), (90, 0, 0, 1, 0), (120, 0, 0, 1, 1)])
        .n(150);
    let mut cases = Vec::new();
    for (panel, slice) in [(lamps, 23), (timer, 67), (held, 7)] {
        let slices = vec![slice; panel.cycles().div_ceil(slice) as usize];
        cases.extend(sliced(&panel.name, Source::Empty, &panel.lent(), &slices));
    }
    cases
}

/// ROMs of the generator with resets that find a lamp lit.
fn roms() -> Vec<Case> {
    let mut cases = Vec::new();
    let mut found = 0;
    for seed in 1.. {
        let panel = Panel::new(format!("any ROM {seed} with resets"))
            .made_rom(seed, LASTING)
            .made_ram(seed)
            .made_schedule(1_000, seed, 30, 0)
            .resets(5)
            .n(1_200);
        let (answer, log) = panel.lent().with_room().run();
        let log = &log[..answer.written];
        if log.len() > 480 || !tells_enough(log) || !darkens(log) {
            continue;
        }
        let slices = [97, 250, 301, u64::MAX];
        cases.extend(sliced(&panel.name, Source::Empty, &panel.lent(), &slices));
        found += 1;
        if found == ROMS {
            break;
        }
    }
    cases
}

/// Whether a reset closes a wait.
fn darkens(log: &[u8]) -> bool {
    let mut lamps = 0;
    records(log).any(|record| {
        let lit = lamps;
        if matches!(record.port, LAMPS | RESET) {
            lamps = record.value;
        }
        record.port == RESET && lit != 0
    })
}

fn drawn() -> Vec<Case> {
    let mut draw = Draw::new(88);
    let mut cases = Vec::new();
    for place in 0..SOUND {
        let name = format!("drawn with resets {place}");
        cases.push(Case::new(name, Source::Empty, sound_log(&mut draw)));
    }
    for place in 0..DAMAGED {
        let mut log = sound_log(&mut draw);
        let wrong = draw.below(log.len() as u64 / 8) as usize;
        log[wrong * RECORD + 6] = RESET;
        log[wrong * RECORD + 7] = 1 + draw.upto(254);
        let name = format!("drawn with a value on port 0 {place}");
        cases.push(Case::new(name, Source::Empty, log).alone(Ground::Value));
    }
    for place in 0..CUT {
        let log = sound_log(&mut draw);
        let mut left = log.len() / RECORD;
        let mut parts = Vec::new();
        while left > 0 {
            let records = draw.below(left as u64 + 1).min(5) as usize;
            parts.push(records);
            left -= records;
        }
        let name = format!("drawn with resets and cut {place}");
        parts.push(0);
        cases.extend(cut(&name, Source::Empty, &log, &parts));
    }
    cases
}

/// Writes to the lamps, resets and other ports.
fn sound_log(draw: &mut Draw) -> Vec<u8> {
    let mut cycle = 0;
    let mut log = Vec::new();
    for _ in 0..1 + draw.below(14) {
        cycle += draw.below(40);
        let (port, value) = match draw.below(6) {
            0 | 1 => (RESET, 0),
            2 => (draw.of(&[2, 3, 4, 6, 7, 8]), draw.upto(7)),
            _ => (LAMPS, draw.word()),
        };
        log.extend(Record { cycle, port, value }.bytes());
    }
    log
}

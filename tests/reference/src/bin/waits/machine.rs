//! Logs that the machine wrote: panels whose firmware writes port F among others. The log of the
//! unbroken run, and those of its slices, read on one from the other.

use reference::case::{Case as Panel, FEW_JCP, FEW_JUMPS, INSIDE, NO_STOPS};
use reference::draw::Draw;
use reference::lent::Lent;
use reference::log::records;
use reference::maker::sample;
use reference::numbers::LOG_FULL;
use reference::waiting::lamps_lit;
use reference::Runner;

use crate::carried::morning;
use crate::case::{Case, Source, LONGEST};

/// A ROM on which a run goes on and comes round by many ways.
const LASTING: u8 = NO_STOPS | FEW_JCP | INSIDE | FEW_JUMPS;

/// Drawn ROMs whose logs tell enough: how many, and how long their logs may be.
const ROMS: usize = 40;
const SHORT: usize = 480;

pub fn cases() -> Vec<Case> {
    let mut cases = samples();
    for (panel, slice) in panels() {
        let slices = vec![slice; panel.cycles().div_ceil(slice) as usize];
        cases.extend(sliced(&panel.name, Source::Empty, &panel.lent(), &slices));
    }
    cases.extend(last_cycles());
    cases.extend(roms());
    cases.push(longest());
    cases
}

/// The unbroken run's log; then the log of each slice, by both runners in turn, read on from the slice
/// before. The last slice is of the cycles that are left.
pub fn sliced(name: &str, from: Source, panel: &Lent, slices: &[u64]) -> Vec<Case> {
    let log_of = |lent: Lent| {
        let (answer, mut log) = lent.with_room().run();
        assert!(!answer.refused && answer.number != LOG_FULL, "{name}");
        log.truncate(answer.written);
        (answer.state, log)
    };
    let (_, whole) = log_of(panel.clone());
    let mut cases = vec![Case::new(name, from, whole.clone())];
    let mut joined: Vec<u8> = Vec::new();
    let mut rest = panel.clone();
    for (place, &slice) in slices.iter().enumerate() {
        let n = slice.min(rest.n);
        let runner = [Runner::Plain, Runner::Skipping][place % 2];
        let (state, log) = log_of(Lent {
            n,
            runner,
            ..rest.clone()
        });
        joined.extend(&log);
        let from = if place == 0 { from } else { Source::Before };
        cases.push(Case::new(format!("{name}, slice {place}"), from, log));
        rest = Lent {
            state,
            n: rest.n - n,
            ..rest
        };
    }
    assert!(rest.n == 0 && joined == whole, "{name}");
    let last = cases.pop().expect("there are slices");
    cases.push(last.same(slices.len()));
    cases
}

fn samples() -> Vec<Case> {
    let mut cases = Vec::new();
    for (name, slice) in [("lobby", 100), ("lobby", 450), ("blink", 300)] {
        let panel = sample(&format!("{name}.panel"));
        let lent = Lent::of_panel(&panel).expect("the sample is a panel");
        let slices = vec![slice; lent.n.div_ceil(slice) as usize];
        let name = format!("sample {name} by {slice} cycles");
        cases.extend(sliced(&name, Source::Empty, &lent, &slices));
    }
    cases
}

/// Each with the cycles of a slice.
fn panels() -> Vec<(Panel, u64)> {
    // LI 15, LDZ 2 to 8 with an OP each, CMA, JCP 001.
    let mut every_port = vec![0x9F];
    for port in 2..=8 {
        every_port.extend([0x80 + port, 0x0E]);
    }
    every_port.extend([0x10, 0xC1]);
    vec![
        // LDZ 5, IA, OP, JCP 001.
        (
            Panel::new("F is line A")
                .rom(0, &[0x85, 0x40, 0x0E, 0xC1])
                .made_schedule(700, 546, 16, 3)
                .n(500),
            90,
        ),
        // LDZ 5, OP, INC, JCP 001, JCP 001.
        (
            Panel::new("F counts")
                .rom(0, &[0x85, 0x0E, 0x0D, 0xC1, 0xC1])
                .n(120),
            7,
        ),
        // STC, LDZ 5, RAR, OP, JCP 002: the lamps from bit 3 to bit 0, one at a time, and then none.
        (
            Panel::new("one lamp after the other")
                .rom(0, &[0x1B, 0x85, 0x30, 0x0E, 0xC2])
                .n(90),
            11,
        ),
        (Panel::new("every port").rom(0, &every_port).n(160), 40),
        // LDZ 5, SPB 0 to 3, RPB 3 to 0, JCP 001.
        (
            Panel::new("bits of F")
                .rom(
                    0,
                    &[0x85, 0x70, 0x71, 0x72, 0x73, 0x63, 0x62, 0x61, 0x60, 0xC1],
                )
                .n(60),
            8,
        ),
        // LDZ 8, SPB 0 to 3, RPB 0, LDZ 5, SPB 2, SPB 2, RPB 2, RPB 2, JCP 000; bit 3 of I has no effect.
        (
            Panel::new("bits of I and F")
                .rom(
                    0,
                    &[
                        0x88, 0x70, 0x71, 0x72, 0x73, 0x60, 0x85, 0x72, 0x72, 0x62, 0x62, 0xC0,
                    ],
                )
                .n(60),
            13,
        ),
        // LDZ 5, OCD A5, SPB 1, OCD 5A, OE, RPB 1, JCP 001.
        (
            Panel::new("OCD, OE and F")
                .rom(0, &[0x85, 0x1E, 0xA5, 0x71, 0x1E, 0x5A, 0x44, 0x61, 0xC1])
                .n(80),
            9,
        ),
        // LDZ 5, STM 0, TTM, JCP 003, CMA, OP, JCP 001.
        (
            Panel::new("a timer turns F over")
                .rom(0, &[0x85, 0x14, 0x80, 0x05, 0xC3, 0x10, 0x0E, 0xC1])
                .n(900),
            37,
        ),
        // LDZ 5, EI, NOP, JCP 002; at 03C IA, OP, EI, RT.
        (
            Panel::new("an interrupt writes F")
                .rom(0, &[0x85, 0x31, 0x00, 0xC2])
                .rom(0x3C, &[0x40, 0x0E, 0x31, 0x48])
                .made_schedule(1_200, 43, 12, 5)
                .n(700),
            33,
        ),
        // LI 9, LDZ 5, OP, CMA, OP, 1C.
        (
            Panel::new("1C behind F")
                .rom(0, &[0x99, 0x85, 0x0E, 0x10, 0x0E, 0x1C])
                .n(20),
            3,
        ),
        // LI 15, LDZ 5, OP, OE, JMP 7D0.
        (
            Panel::new("22 with four open waits")
                .rom(0, &[0x9F, 0x85, 0x0E, 0x44, 0xA7, 0xD0])
                .n(20),
            3,
        ),
        (Panel::new("no record").n(20), 5),
    ]
}

/// Cycle numbers up to 2^48 - 1, read on from a morning.
fn last_cycles() -> Vec<Case> {
    let panel = Panel::new("up to the last cycle")
        .rom(0, &[0x85, 0x40, 0x0E, 0xC1])
        .made_schedule(300, 96, 20, (1 << 48) - 1 - 320)
        .with(|state| state.cycle = (1 << 48) - 1 - 300)
        .n(300);
    let from = Source::Given(morning());
    sliced(&panel.name, from, &panel.lent(), &[120, 0, 1, 90, 89])
}

/// A log of 4,000 bytes, where F counts.
fn longest() -> Case {
    let panel = Panel::new("a full log").rom(0, &[0x85, 0x0E, 0x0D, 0xC1, 0xC1]);
    let (answer, log) = panel.log(LONGEST as u32).n(100_000).lent().run();
    assert!(answer.number == LOG_FULL && answer.written == LONGEST);
    Case::new("a full log of 4,000 bytes", Source::Empty, log)
}

/// ROMs of the generator that light three landings or more and write two other ports or more.
fn roms() -> Vec<Case> {
    let mut draw = Draw::new(5);
    let mut cases = Vec::new();
    let mut found = 0;
    for seed in 1.. {
        let panel = Panel::new(format!("any ROM {seed}"))
            .made_rom(seed, LASTING)
            .made_ram(seed)
            .made_schedule(1_000, seed, 30, 0)
            .n(1_500);
        let (answer, log) = panel.lent().with_room().run();
        let log = &log[..answer.written];
        if log.len() > SHORT || !tells_enough(log) {
            continue;
        }
        let slices: Vec<u64> = (0..2 + draw.below(4)).map(|_| draw.below(500)).collect();
        let slices = [slices, vec![u64::MAX]].concat();
        let name = &panel.name;
        cases.extend(sliced(name, Source::Empty, &panel.lent(), &slices));
        found += 1;
        if found == ROMS {
            break;
        }
    }
    cases
}

pub fn tells_enough(log: &[u8]) -> bool {
    let lit = lamps_lit(0, log);
    let others =
        (2..=8).filter(|&port| port != 5 && records(log).any(|record| record.port == port));
    lit.iter().filter(|&&count| count > 0).count() >= 3 && others.count() >= 2
}

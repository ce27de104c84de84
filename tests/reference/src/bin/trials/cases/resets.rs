//! Request R-8, the reset line: RES high for one to six cycles around every kind of cycle, falls of INT in a reset, resets that meet a
//! full log, counts in the state given, and panels that are held in reset.

use reference::case::{Case, LinesFrom, FEW_JCP, FEW_JUMPS, INSIDE, NO_STOPS};
use reference::draw::Draw;

/// A ROM on which a run goes on and comes round by many ways.
const LASTING: u8 = NO_STOPS | FEW_JCP | INSIDE | FEW_JUMPS;

/// At 03C: INC, OE, EI, RT.
const ANSWER: [u8; 4] = [0x0D, 0x44, 0x31, 0x48];

pub fn cases() -> Vec<Case> {
    let mut cases = around_every_cycle();
    cases.extend(falls());
    cases.extend(ends());
    cases.extend(full_logs());
    cases.extend(counts());
    cases.extend(held());
    cases.extend(stops());
    cases.extend(drawn());
    cases.extend(roms());
    cases.extend(refusals());
    cases
}

/// Lines A to D are 0, INT is high.
fn pulse(from: u64, cycles: u64) -> Vec<LinesFrom> {
    vec![(from, 0, 0, 1, 1), (from + cycles, 0, 0, 1, 0)]
}

/// A pulse among falls of INT, which is low for two cycles each: all lines of each cycle.
fn with_falls(pulse: (u64, u64), falls: &[u64]) -> Vec<LinesFrom> {
    let (from, cycles) = pulse;
    let last = falls.iter().copied().max().unwrap_or(0).max(from + cycles) + 3;
    (0..=last)
        .map(|cycle| {
            let low = falls.iter().any(|&fall| (fall..fall + 2).contains(&cycle));
            let high = (from..from + cycles).contains(&cycle);
            (cycle, 0x5A, 0xC3, u8::from(!low), u8::from(high))
        })
        .collect()
}

/// Programs with the kinds of cycles, each with a name, the cycles that it takes to come round, and where INT falls.
fn programs() -> Vec<(Case, u64, &'static [u64])> {
    let program = |name: &str, rom: &[u8]| Case::new(name).rom(0, rom).rom(0x3C, &ANSWER).log(512);
    vec![
        // EI, NOPs, JCP 001.
        (
            program("acceptance", &[0x31, 0x00, 0x00, 0xC1]),
            12,
            &[2, 9],
        ),
        // OE, TAZ, JMP 000.
        (program("owed cycles", &[0x44, 0x42, 0xA0, 0x00]), 6, &[]),
        // STC, TC over CI, FBF over STM, XC, NOP, JCP 000.
        (
            program(
                "skips",
                &[0x1B, 0x04, 0x17, 0x33, 0x20, 0x14, 0x80, 0x1A, 0x00, 0xC0],
            ),
            11,
            &[],
        ),
        (program("OCD", &[0x1E, 0x5A, 0x1E, 0xC3, 0xC0]), 5, &[]),
        // NOPs while the timer has five ticks left, then TTM, OE.
        (
            program(
                "the timer's last tick",
                &[0x00, 0x00, 0x00, 0x00, 0x00, 0x05, 0x00, 0x44],
            )
            .with(|state| state.register = REGISTER_5),
            9,
            &[],
        ),
        // STM 0, TTM, JCP 002, OE, JCP 000, with a jump of ten ticks at first.
        (
            program("jumps", &[0x14, 0x80, 0x05, 0xC2, 0x44, 0xC0])
                .with(|state| (state.pc, state.register) = (2, REGISTER_11)),
            13,
            &[],
        ),
        // LI 5, LI 9, OE, LDI 12, LDI 34, TLA, OE, JCP 000.
        (
            program(
                "load strings",
                &[0x95, 0x99, 0x44, 0x15, 0x12, 0x15, 0x34, 0x12, 0x44, 0xC0],
            )
            .with(|state| state.inte = 1),
            12,
            &[0, 4],
        ),
        // NOPs, LI 5, LI 9, CLA, OE, JCP 000.
        (
            program(
                "a table of LI",
                &[0x00, 0x00, 0x00, 0x95, 0x99, 0x90, 0x44, 0xC0],
            ),
            9,
            &[],
        ),
        // EI, STM 0, STM 1, NOP, JCP 001.
        (
            program("EI and STM", &[0x31, 0x14, 0x80, 0x14, 0x81, 0x00, 0xC1]),
            8,
            &[3],
        ),
        // CAL 040, INC, NOP, OE, JCP 000; at 040 XLS, SFB 1, RTS over OE.
        (
            program("calls", &[0xA8, 0x40, 0x44, 0x0D, 0x00, 0x44, 0xC0])
                .rom(0x40, &[0x4C, 0x7D, 0x49])
                .made_ram(7),
            16,
            &[],
        ),
        // IP of C, OP, INC, NOP, IA, OE, JCP 000: C reads back what it drives.
        (
            program("C read back", &[0x32, 0x0E, 0x0D, 0x00, 0x40, 0x44, 0xC0])
                .with(|state| state.dpl = 2),
            9,
            &[],
        ),
    ]
}

/// Registers with so many ticks left, the counter being 0.
const REGISTER_5: u8 = 0b11_1110;
const REGISTER_11: u8 = 0b01_0101;

/// "A cycle with RES high that brings or finds the count at 4 is a reset cycle".
fn around_every_cycle() -> Vec<Case> {
    let mut cases = Vec::new();
    for (program, round, falls) in programs() {
        for from in 0..round {
            for high in 1..=6 {
                let lines = if falls.is_empty() {
                    pulse(from, high)
                } else {
                    with_falls((from, high), falls)
                };
                let mut case = program.clone().lines(&lines).n(from + high + round + 4);
                case.name = format!("{}, RES high from {from} for {high}", program.name);
                cases.push(case.ends(0));
            }
        }
    }
    cases
}

/// INT falls before, in and behind a reset, is low before it or stays low; with and without INTE.
fn falls() -> Vec<Case> {
    let mut cases = Vec::new();
    for inte in [0, 1] {
        for fall in 0..12 {
            for rise in [fall + 1, 40] {
                let records: Vec<LinesFrom> = (0..14)
                    .map(|cycle| {
                        let low = (fall..rise).contains(&cycle);
                        let res = u8::from((3..9).contains(&cycle));
                        (cycle, 0, 0, u8::from(!low), res)
                    })
                    .collect();
                // EI, NOPs; the answer at 03C.
                cases.push(
                    Case::new(format!(
                        "INT low from {fall} to {rise}, reset from 6 to 8, INTE {inte}"
                    ))
                    .rom(0, &[0x31])
                    .rom(0x3C, &ANSWER)
                    .with(|state| state.inte = inte)
                    .lines(&records)
                    .n(24)
                    .ends(0),
                );
            }
        }
        for level in [0, 1] {
            for (before, within) in [(0, 0), (0, 1), (1, 0), (1, 1)] {
                let records = [
                    (0, 0, 0, before, 1),
                    (3, 0, 0, within, 1),
                    (5, 0, 0, before, 0),
                ];
                cases.push(
                    Case::new(format!(
                        "level {level} seen, INT {before}, {within} in the reset, INTE {inte}"
                    ))
                    .rom(0x3C, &ANSWER)
                    .with(|state| (state.level, state.inte) = (level, inte))
                    .lines(&records)
                    .n(10)
                    .ends(0),
                );
            }
        }
    }
    cases
}

/// Runs that end before, in and behind a reset, from cycles before and in it.
fn ends() -> Vec<Case> {
    let mut cases = Vec::new();
    for count in 0..=4 {
        for n in 0..=8 {
            let case = Case::new(format!("{n} cycles of a pulse, from a count of {count}"))
                .rom(0, &[0x44, 0x0D, 0x00, 0xC0])
                .lines(&pulse(100, 6))
                .with(|state| (state.cycle, state.count) = (98 + u64::from(count), count));
            cases.push(case.n(n).ends(0));
        }
    }
    for from in [1, 255, 65_535, (1 << 32) - 3, (1 << 48) - 40] {
        for high in [3, 4, 9] {
            cases.push(
                Case::new(format!("from cycle {from}, RES high for {high}"))
                    .rom(0, &[0x44, 0x0D, 0x00, 0xC0])
                    .with(|state| state.cycle = from)
                    .lines(&pulse(from + 7, high))
                    .log(256)
                    .n(39)
                    .ends(0),
            );
        }
    }
    cases
}

/// "On reaching 4 it appends one record .., and stop 3 covers it".
fn full_logs() -> Vec<Case> {
    let mut cases = Vec::new();
    for (name, program) in [
        ("NOPs", &[0x00][..]),
        ("OCD", &[0x1E, 0x5A, 0xC0][..]),
        ("OE", &[0x44, 0x00, 0xC0][..]),
    ] {
        for length in [
            0, 1, 7, 8, 9, 15, 16, 17, 23, 24, 25, 31, 32, 33, 39, 40, 41, 47, 48,
        ] {
            // Two resets, in cycles 5 and 14.
            let records = [pulse(2, 5), pulse(11, 4)].concat();
            let case = Case::new(format!("{name}, resets with a log of {length}"))
                .rom(0, program)
                .lines(&records);
            cases.push(case.log(length).n(30));
        }
    }
    // A log that lacks the record alone: from every count, with RES high and low.
    for count in 0..=4 {
        for res in [0, 1] {
            for length in [0, 7, 8] {
                let stops = res == 1 && count == 3 && length < 8;
                cases.push(
                    Case::new(format!("count {count}, RES {res}, NOP, a log of {length}"))
                        .with(|state| (state.count, state.level) = (count, 0))
                        .lines(&[(0, 0, 0, 1, res), (1, 0, 0, 1, 0)])
                        .log(length)
                        .n(1)
                        .ends(if stops { 3 } else { 0 }),
                );
            }
        }
    }
    cases
}

/// Every count with RES high and low, every number of cycles owed and every mark, an interrupt to accept or none, the timer at its last
/// tick.
fn counts() -> Vec<Case> {
    let mut cases = Vec::new();
    for count in 0..=4 {
        for res in [0, 1] {
            for owed in [0, 1, 3] {
                for mark in 0..=4 {
                    for flags in [0, 1] {
                        let name = format!("count {count}, RES {res}, owed {owed}, mark {mark}, INT and INTE {flags}");
                        cases.push(
                            Case::new(name)
                                .rom(0x123, &[0x95, 0x15, 0x28, 0x05, 0x44])
                                .with(|state| {
                                    (state.pc, state.count) = (0x123, count);
                                    (state.mark, state.owed) = (mark, owed);
                                    (state.register, state.ports) = (32, [9, 8, 7, 6, 5, 4, 3]);
                                    (state.int, state.inte) = (flags, flags);
                                })
                                .lines(&[(0, 0x11, 0x22, 1, res)])
                                .n(3)
                                .ends(0),
                        );
                    }
                }
            }
        }
    }
    // A wait with a count left over, and with RES high in the cycle in which it would jump.
    for count in 0..=4 {
        for (res, at) in [(0, 0), (1, 0), (1, 1), (1, 20), (1, 21)] {
            cases.push(
                Case::new(format!(
                    "a wait with a count of {count}, RES {res} from {at}"
                ))
                .rom(0x040, &[0x05, 0xC0, 0x44, 0xC0])
                .with(|state| (state.pc, state.register, state.counter) = (0x040, 1, 2))
                .with(|state| state.count = count)
                .lines(&[(at, 0, 0, 1, res), (at + 2, 0, 0, 1, 0)])
                .n(230)
                .ends(0),
            );
        }
    }
    cases
}

/// Held for ever, from a run's beginning, within it and from its end on; with records in between.
fn held() -> Vec<Case> {
    let mut cases = Vec::new();
    for from in [0, 1, 50, 199, 200] {
        for n in [200, 20_000] {
            cases.push(
                Case::new(format!("held in reset from {from} on, {n} cycles"))
                    .rom(0, &[0x14, 0x85, 0x05, 0xC2, 0x44, 0xC0])
                    .lines(&[(from, 0x12, 0x34, 1, 1)])
                    .log(8_000)
                    .n(n)
                    .ends(0),
            );
        }
    }
    // Other lines change while it is held, each cycle or now and then.
    for gap in [1, 7, 300] {
        let records: Vec<LinesFrom> = (0..40)
            .map(|k| (20 + gap * k, k as u8, 0x77, (k % 3 == 0).into(), 1))
            .chain([(20 + gap * 40, 0, 0, 1, 0)])
            .collect();
        cases.push(
            Case::new(format!("held in reset, lines change every {gap} cycles"))
                .rom(0, &[0x31, 0x40, 0x44, 0xC1])
                .rom(0x3C, &ANSWER)
                .lines(&records)
                .log(8_000)
                .n(60 + 40 * gap)
                .ends(0),
        );
    }
    // The last cycles.
    cases.push(
        Case::new("held in reset up to the last cycle")
            .with(|state| (state.cycle, state.count) = ((1 << 48) - 1 - 500, 2))
            .lines(&[(0, 0, 0, 1, 1)])
            .n(500)
            .ends(0),
    );
    cases
}

/// 22 and 23 with RES high: a reset cycle needs no ROM byte, and a stop counts nothing.
fn stops() -> Vec<Case> {
    let mut cases = Vec::new();
    for (name, pc, code, number) in [
        ("1C", 0x100, 0x1C, 23),
        ("45", 0x100, 0x45, 23),
        ("OCD at 7CF", 0x7CF, 0x1E, 22),
        ("TC at 7CF", 0x7CF, 0x04, 22),
        ("above the ROM", 0x7D0, 0x00, 22),
    ] {
        for count in 0..=4 {
            for res in [0, 1] {
                let reset = res == 1 && count >= 3;
                cases.push(
                    Case::new(format!("{name} with a count of {count}, RES {res}"))
                        .rom(pc, &[code])
                        .with(|state| (state.pc, state.count) = (pc, count))
                        .with(|state| (state.carry, state.level) = (1, 0))
                        .lines(&[(0, 0, 0, 1, res)])
                        .n(2)
                        .ends(if reset { 0 } else { number }),
                );
            }
        }
        // NOPs and then the code, in each cycle of a pulse.
        for before in 0..6 {
            cases.push(
                Case::new(format!("NOPs and {name} after {before} cycles of a pulse"))
                    .rom(pc, &[code])
                    .with(|state| (state.pc, state.carry) = (pc - before, 1))
                    .lines(&pulse(0, 5))
                    .n(9),
            );
        }
    }
    cases
}

/// Any legal state, some records with RES around its cycle, and code of every kind.
fn drawn() -> Vec<Case> {
    let mut draw = Draw::new(808);
    (0..240)
        .map(|place| {
            let state = draw.counted_state();
            let records = draw.resets(state.cycle);
            Case::new(format!("drawn with RES {place}"))
                .made_rom(draw.seed(), NO_STOPS | INSIDE)
                .made_ram(draw.seed())
                .state(state)
                .lines(&records)
                .log(draw.below(60) as u32 * 4)
                .n(draw.below(40))
        })
        .collect()
}

/// Long runs on ROMs of the generator, with resets now and then.
fn roms() -> Vec<Case> {
    let mut draw = Draw::new(809);
    let mut cases = Vec::new();
    for place in 0..40 {
        let gap = draw.of(&[2, 5, 12, 60]);
        cases.push(
            Case::new(format!("any ROM with resets {place}"))
                .made_rom(draw.seed(), LASTING)
                .made_ram(draw.seed())
                .made_schedule(40_000, draw.seed(), gap, 0)
                .resets(draw.of(&[2, 3, 5, 9]))
                .log(40_000)
                .n(2_000),
        );
    }
    cases
}

/// "The schedule's tenth byte becomes RES, 0 or 1 .., and 13 is amended so"; a count above 4 is 34.
fn refusals() -> Vec<Case> {
    let mut cases = Vec::new();
    for (place, value) in [
        (9, 1),
        (9, 2),
        (9, 128),
        (9, 255),
        (29, 0),
        (29, 2),
        (29, 255),
    ] {
        cases.push(
            Case::new(format!("byte {place} of a schedule is {value}"))
                .lines(&[(0, 0, 0, 1, 1), (7, 0, 0, 1, 0), (9, 0, 0, 1, 1)])
                .schedule_bytes(place, &[value])
                .n(12)
                .ends(if value > 1 { 13 } else { 0 }),
        );
    }
    let twice = [(7, 0, 0, 1, 1), (7, 0, 0, 1, 1), (8, 0, 0, 1, 2)];
    cases.push(Case::new("14, then a RES of 2").lines(&twice).n(1).ends(14));
    let both = [(7, 0, 0, 1, 1), (7, 0, 0, 1, 2)];
    cases.push(
        Case::new("a RES of 2 and 14 in one record")
            .lines(&both)
            .n(1)
            .ends(13),
    );
    for count in [0, 4, 5, 6, 64, 255] {
        for n in [0, 5, u64::MAX] {
            let number = match (count, n) {
                (5.., _) => 34,
                (_, u64::MAX) => 2,
                _ => 0,
            };
            cases.push(
                Case::new(format!("a count of {count}, n {n}"))
                    .with(|state| state.count = count)
                    .n(n)
                    .ends(number),
            );
        }
    }
    cases
}

#[cfg(test)]
mod tests {
    use super::*;
    use reference::{Coverage, State};

    fn states(case: &Case) -> Vec<State> {
        (0..=case.cycles())
            .map(|n| case.clone().n(n).run(&mut Coverage::new()).0.state)
            .collect()
    }

    #[test]
    fn the_registers_have_their_ticks_left() {
        for (register, ticks) in [(REGISTER_5, 5), (REGISTER_11, 11)] {
            let case = Case::new("")
                .with(|state| state.register = register)
                .n(ticks);
            let ended = |state: &State| state.tm == 1;
            assert_eq!(states(&case).iter().position(ended), Some(ticks as usize));
        }
    }

    /// Each kind of cycle is the first, second, third and fourth with RES high, and the one that finds 4.
    #[test]
    fn every_kind_of_cycle_meets_every_count() {
        type Kind = (&'static str, fn(&State) -> bool);
        let kinds: [Kind; 8] = [
            ("acceptance", |s| {
                s.int == 1 && s.inte == 1 && s.owed == 0 && matches!(s.mark, 0 | 3)
            }),
            ("held back", |s| {
                s.int == 1 && s.inte == 1 && s.owed == 0 && matches!(s.mark, 1 | 2 | 4)
            }),
            ("one owed", |s| s.owed == 1),
            ("two owed", |s| s.owed == 2),
            ("the last tick", |s| s.register == 32 && s.counter == 0),
            ("a mark LI", |s| s.mark == 4),
            ("a mark STM", |s| s.mark == 3),
            ("latches", |s| s.ports != [0; 7]),
        ];
        let states: Vec<State> = around_every_cycle().iter().flat_map(states).collect();
        for (name, kind) in kinds {
            for count in 0..=3 {
                let met = states
                    .iter()
                    .filter(|s| s.count == count && kind(s))
                    .count();
                assert!(met >= 3, "{name} with a count of {count}: {met}");
            }
        }
        assert!(states.iter().filter(|s| s.count == 4).count() > 500);
    }

    #[test]
    fn resets_meet_full_logs_and_jumps_are_held_back() {
        let full = full_logs();
        let at_record = |case: &&Case| {
            let answer = case.run(&mut Coverage::new()).0;
            answer.number == 3 && answer.state.count == 3
        };
        assert!(full.iter().filter(at_record).count() > 10);
        let spared = |case: &Case| {
            let answer = case.skipping().run(&mut Coverage::new()).0;
            answer.cycles - answer.steps
        };
        let waits: Vec<u64> = counts()
            .iter()
            .map(spared)
            .filter(|&spared| spared > 0)
            .collect();
        assert!(waits.len() >= 20, "{waits:?}");
    }
}

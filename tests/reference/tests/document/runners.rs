//! "Two runners", and the lists of demand 3.

use reference::codes::{always_skips, can_skip, is_none};
use reference::{Answer, Coverage, Runner, State, Version};

use crate::common::*;

/// TTM at 012, JCP back to it.
const LOOP: (usize, &[u8]) = (0x012, &[0x05, 0xD2]);

/// A state that waits there with r ticks left.
fn waiting(left: u64) -> State {
    let mut state = State::fresh();
    state.pc = 0x012;
    state.register = 1;
    state.counter = 63;
    for _ in left..4_032 {
        step_timer(&mut state);
    }
    assert_eq!(ticks_left(&state), left);
    state
}

/// The timer's step in the document's words.
fn step_timer(state: &mut State) {
    let differ = state.register / 32 % 2 != state.register / 16 % 2;
    state.register = (2 * u32::from(state.register) % 64) as u8 + u8::from(differ);
    if state.register == 1 {
        if state.counter == 0 {
            state.tm = 1;
            state.register = 0;
        } else {
            state.counter -= 1;
        }
    }
}

/// r, counted.
fn ticks_left(state: &State) -> u64 {
    let mut state = state.clone();
    state.tm = 0;
    let mut left = 0;
    while state.tm == 0 {
        step_timer(&mut state);
        left += 1;
    }
    left
}

fn cycle_of(record: &[u8]) -> u64 {
    record[..6]
        .iter()
        .fold(0, |cycle, &byte| 256 * cycle + u64::from(byte))
}

/// j in the document's words, 0 where there is no jump.
fn defined_jump(rom: &[u8], schedule: &[u8], state: &State, left: u64) -> u64 {
    let byte = |address: u16| rom.get(usize::from(address)).copied();
    let next = state.pc / 256 * 256 + (state.pc + 1) % 256;
    let back = match byte(next) {
        Some(code) if code >= 0xC0 => Some(next / 64 * 64 + u16::from(code % 64)),
        _ => None,
    };
    let (mut line, mut res) = (1, 0);
    for record in schedule.chunks(10) {
        if cycle_of(record) <= state.cycle {
            (line, res) = (record[8], record[9]);
        }
    }
    let holds = state.owed == 0
        && state.tm == 0
        && state.register != 0
        && !(state.int == 1 && state.inte == 1)
        && byte(state.pc) == Some(0x05)
        && back == Some(state.pc)
        && line == state.level
        && res == 0
        && state.count == 0;
    if !holds {
        return 0;
    }
    let mut j = ticks_left(state).min(left) / 2 * 2;
    let quiet = |j: u64| {
        schedule
            .chunks(10)
            .map(cycle_of)
            .all(|cycle| cycle <= state.cycle || cycle > state.cycle + j - 1)
    };
    while j >= 2 && !quiet(j) {
        j -= 2;
    }
    j
}

/// The timer-skipping runner made of single plain cycles, its steps counted as defined.
fn defined_run(rom: &[u8], schedule: &[u8], start: &State, n: u64) -> (Answer, Vec<u8>) {
    let mut log = Vec::new();
    let mut total = Answer {
        number: 0,
        refused: false,
        state: start.clone(),
        cycles: 0,
        clocks: 0,
        begun: 0,
        written: 0,
        steps: 0,
    };
    while total.cycles < n {
        let j = defined_jump(rom, schedule, &total.state, n - total.cycles).max(1);
        for _ in 0..j {
            let (answer, records) = go(Runner::Plain, rom, schedule, &total.state, 1);
            log.extend(records);
            total.number = answer.number;
            total.cycles += answer.cycles;
            total.begun += answer.begun;
            total.state = answer.state;
        }
        if total.number != 0 {
            break;
        }
        total.steps += 1;
    }
    total.clocks = 4 * total.cycles;
    total.written = log.len();
    (total, log)
}

#[test]
fn the_skipping_runner_is_the_plain_one_but_for_its_steps() {
    let draw = &mut Draw::new(21);
    let (mut saved_steps, mut stops) = (0, 0);
    for _ in 0..4_000 {
        let (rom, schedule, start) = any_panel(draw);
        let n = draw.below(3_000);
        let (plain, plain_log) = go(Runner::Plain, &rom, &schedule, &start, n);
        let (mut skipping, skipping_log) = go(Runner::Skipping, &rom, &schedule, &start, n);
        assert!(!plain.refused);
        assert_eq!(plain.steps, plain.cycles);
        assert_eq!(plain.clocks, 4 * plain.cycles);
        assert!(skipping.steps <= plain.steps);
        saved_steps += plain.steps - skipping.steps;
        stops += u64::from(plain.number != 0);
        skipping.steps = plain.steps;
        assert_eq!(skipping, plain);
        assert_eq!(skipping_log, plain_log);
        // What a run answers can be saved.
        assert_eq!(save(Version::Two, &plain.state, &mut [0; 82]), 0);
    }
    assert!(saved_steps > 100_000, "{saved_steps}");
    assert!(stops > 150, "{stops}");
}

#[test]
fn the_steps_of_the_skipping_runner_are_as_defined() {
    let draw = &mut Draw::new(22);
    let mut jumps = 0;
    for _ in 0..800 {
        let (rom, schedule, start) = any_panel(draw);
        let n = draw.below(700);
        let (skipping, log) = go(Runner::Skipping, &rom, &schedule, &start, n);
        let (defined, defined_log) = defined_run(&rom, &schedule, &start, n);
        assert_eq!(skipping, defined);
        assert_eq!(log, defined_log);
        jumps += u64::from(skipping.steps < skipping.cycles);
    }
    assert!(jumps > 200, "{jumps}");
}

/// Cycles and steps of the timer-skipping runner from this state on.
fn steps(schedule: &[u8], state: &State, n: u64) -> u64 {
    let rom = rom(&[LOOP]);
    let (answer, _) = go(Runner::Skipping, &rom, schedule, state, n);
    let (defined, _) = defined_run(&rom, schedule, state, n);
    assert_eq!(answer, defined);
    answer.steps
}

#[test]
fn a_jump_ends_at_tm_if_the_ticks_left_are_even() {
    let rom = rom(&[LOOP]);
    let (answer, _) = go(Runner::Skipping, &rom, &[], &waiting(4_032), 4_032);
    assert_eq!(
        (answer.steps, answer.begun, answer.cycles),
        (1, 4_032, 4_032)
    );
    let state = answer.state;
    assert_eq!((state.tm, state.register, state.counter), (1, 0, 0));
    assert_eq!((state.pc, state.cycle), (0x012, 4_032));
    // One left: TTM doesn't skip, JCP leads back, TTM skips.
    assert_eq!(steps(&[], &waiting(63), 65), 1 + 3);
    assert_eq!(steps(&[], &waiting(1), 1), 1);
    assert_eq!(steps(&[], &waiting(2), 2), 1);
}

#[test]
fn a_jump_keeps_within_the_cycles_left() {
    assert_eq!(steps(&[], &waiting(100), 7), 2);
    assert_eq!(steps(&[], &waiting(100), 8), 1);
    assert_eq!(steps(&[], &waiting(100), 1), 1);
}

#[test]
fn a_jump_keeps_before_the_next_record() {
    let mut state = waiting(1_000);
    state.cycle = 500;
    // At the present cycle, or behind the jump: no matter.
    assert_eq!(steps(&schedule(&[(500, 1, 0, 1)]), &state, 100), 1);
    assert_eq!(steps(&schedule(&[(600, 1, 0, 1)]), &state, 100), 1);
    // Inside: j is rounded down to even after the record is looked at.
    for (cycle, jumps_and_cycles) in [(599, 1 + 2), (501, 2 + 1), (502, 2), (503, 1 + 2 + 1)] {
        let lines = schedule(&[(cycle, 1, 0, 1)]);
        assert_eq!(steps(&lines, &state, 100), jumps_and_cycles);
    }
}

#[test]
fn the_conditions_of_a_jump() {
    let n = 10;
    assert_eq!(steps(&[], &waiting(100), n), 1);
    // Whatever the mark.
    for mark in [OTHER, LDI, EI, STM, LI] {
        let mut state = waiting(100);
        state.mark = mark;
        assert_eq!(steps(&[], &state, n), 1);
    }
    let mut state = waiting(100);
    state.owed = 2;
    assert_eq!(steps(&[], &state, n), 2 + 1);
    let mut state = waiting(100);
    state.tm = 1;
    assert!(steps(&[], &state, n) > 5);
    // The timer stopped: an endless wait, cycle by cycle.
    let mut state = waiting(100);
    state.register = 0;
    state.counter = 0;
    assert_eq!(steps(&[], &state, n), n);
    for (int, inte) in [(0, 0), (0, 1), (1, 0)] {
        let mut state = waiting(100);
        state.int = int;
        state.inte = inte;
        assert_eq!(steps(&[], &state, n), 1);
    }
    // INT and INTE both 1, also while the mark keeps the acceptance away.
    for mark in [LDI, EI, LI] {
        let mut state = waiting(100);
        state.int = 1;
        state.inte = 1;
        state.mark = mark;
        assert_eq!(steps(&[], &state, 1), 1);
        assert_eq!(steps(&[], &state, n), n);
    }
    // The line differs from the level seen for one cycle, by a rise too.
    let mut state = waiting(100);
    state.level = 0;
    assert_eq!(steps(&[], &state, n), 1 + 1 + 1);
    let state = waiting(100);
    assert_eq!(steps(&schedule(&[(0, 0, 0, 0)]), &state, n), 1 + 1 + 1);
}

#[test]
fn the_loop_of_a_jump_stands_in_one_page() {
    for (ttm, jcp, code, jumps) in [
        (0x100, 0x101, 0xC0, true),
        (0x13E, 0x13F, 0xFE, true),
        (0x13F, 0x140, 0xFF, false),
        (0x1FF, 0x100, 0xFF, false),
        (0x100, 0x101, 0xC1, false),
        (0x100, 0x101, 0x80, false),
        (0x7CE, 0x7CF, 0xCE, true),
    ] {
        let rom = rom(&[(ttm, &[0x05]), (jcp, &[code])]);
        let mut state = waiting(100);
        state.pc = ttm as u16;
        let (answer, _) = go(Runner::Skipping, &rom, &[], &state, 2);
        let (defined, _) = defined_run(&rom, &[], &state, 2);
        assert_eq!(answer, defined);
        assert_eq!(answer.steps, if jumps { 1 } else { 2 });
    }
    // TTM at 7CF: no byte behind it, no jump, and stop 22 after it.
    let rom = rom(&[(0x7CF, &[0x05])]);
    let mut state = waiting(100);
    state.pc = 0x7CF;
    let (answer, _) = go(Runner::Skipping, &rom, &[], &state, 2);
    assert_eq!((answer.number, answer.cycles, answer.steps), (22, 1, 1));
}

#[test]
fn a_run_then_a_run_is_one_run() {
    let draw = &mut Draw::new(23);
    for _ in 0..3_000 {
        let (rom, schedule, start) = any_panel(draw);
        let (a, b) = (draw.below(600), draw.below(600));
        let (whole, whole_log) = go(Runner::Plain, &rom, &schedule, &start, a + b);
        let runner = if draw.one_in(2) {
            Runner::Plain
        } else {
            Runner::Skipping
        };
        let (first, mut log) = go(runner, &rom, &schedule, &start, a);
        let mut image = [0; 82];
        assert_eq!(save(Version::Two, &first.state, &mut image), 0);
        let (number, state) = restore(&image);
        assert_eq!(number, 0);
        let (second, rest) = go(runner, &rom, &schedule, &state, b);
        log.extend(rest);
        assert_eq!(second.state, whole.state);
        assert_eq!(log, whole_log);
        assert_eq!(first.cycles + second.cycles, whole.cycles);
        assert_eq!(first.begun + second.begun, whole.begun);
        if b > 0 {
            assert_eq!(second.number, whole.number);
        }
    }
}

#[test]
fn every_list_of_slices_ends_as_one_unbroken_run() {
    let draw = &mut Draw::new(24);
    let mut refused_counts = 0;
    for _ in 0..600 {
        let (rom, schedule, start) = any_panel(draw);
        let mut state = start.clone();
        let (mut asked, mut cycles, mut begun) = (0, 0, 0);
        let mut log = Vec::new();
        let mut numbers = Vec::new();
        for _ in 0..draw.below(40) {
            // Refused calls among them, with whatever else.
            match draw.below(6) {
                0 => {
                    let other = any_state(draw);
                    let mut lent = [0xA5; 40];
                    let answer = run(Runner::Plain, &rom[1..], &schedule, &other, &mut lent, 9);
                    assert_eq!((answer.number, answer.refused), (21, true));
                    assert_eq!((answer.state, lent), (other, [0xA5; 40]));
                }
                1 => assert_eq!(save(Version::Two, &any_state(draw), &mut [0; 81]), 1),
                2 => assert_eq!(restore(&[0; 82]).0, 32),
                _ => {}
            }
            let runner = if draw.one_in(2) {
                Runner::Plain
            } else {
                Runner::Skipping
            };
            // "a log of 16n bytes for n cycles": `go` lends just that.
            let longest = [2, 5, 30, 300][draw.below(4) as usize];
            let n = draw.below(longest);
            let (answer, records) = go(runner, &rom, &schedule, &state, n);
            assert!(!answer.refused);
            asked += n;
            cycles += answer.cycles;
            begun += answer.begun;
            log.extend(records);
            numbers.push(answer.number);
            // Saved as either version; 54 is one more refused call.
            let mut image = vec![0; 82];
            if draw.one_in(2) {
                image.pop();
                let due = if answer.state.count == 0 { 0 } else { 54 };
                assert_eq!(save(Version::One, &answer.state, &mut image), due);
                refused_counts += u64::from(due == 54);
                image.resize(if due == 0 { 81 } else { 82 }, 0);
            }
            if image.len() == 82 {
                assert_eq!(save(Version::Two, &answer.state, &mut image), 0);
            }
            state = restore(&image).1;
        }
        let (whole, whole_log) = go(Runner::Plain, &rom, &schedule, &start, asked);
        assert_eq!(state, whole.state);
        assert_eq!(log, whole_log);
        assert_eq!((cycles, begun), (whole.cycles, whole.begun));
        if whole.number == 0 {
            assert!(numbers.iter().all(|&number| number == 0));
        } else {
            assert!(numbers.contains(&whole.number));
            assert!(numbers
                .iter()
                .all(|number| [0, whole.number].contains(number)));
        }
    }
    assert!(refused_counts > 100, "{refused_counts}");
}

#[test]
fn a_log_of_16n_bytes_is_enough() {
    // Stop 3 never comes.
    let draw = &mut Draw::new(25);
    for _ in 0..2_000 {
        let (mut rom, schedule, start) = any_panel(draw);
        for byte in &mut rom {
            if draw.one_in(3) {
                *byte = [0x1E, 0x0E, 0x74, 0x70][draw.below(4) as usize];
            }
        }
        let (answer, _) = go(Runner::Skipping, &rom, &schedule, &start, draw.below(30));
        assert_ne!(answer.number, 3);
    }
    // OCD in one cycle needs it all. A reset cuts it short, and OCD begins again: 40 bytes in 3 cycles.
    let rom = rom(&[(0, &[0x1E, 0x5A])]);
    let (answer, _) = go(Runner::Plain, &rom, &[], &State::fresh(), 1);
    assert_eq!((answer.number, answer.written), (0, 16));
    let mut start = State::fresh();
    start.count = 2;
    let lines = lines(&[(0, 0, 0, 1, 1), (2, 0, 0, 1, 0)]);
    let (answer, log) = go(Runner::Plain, &rom, &lines, &start, 3);
    assert_eq!((answer.number, answer.cycles, answer.begun), (0, 3, 2));
    let ocd = |cycle: u64| [written(cycle, 2, 10), written(cycle, 3, 5)].concat();
    assert_eq!(log, [ocd(0), written(1, 0, 0), ocd(2)].concat());
}

#[test]
fn the_log_past_its_records_stays_as_it_was() {
    let draw = &mut Draw::new(26);
    let mut full = 0;
    for _ in 0..2_000 {
        let (rom, schedule, start) = any_panel(draw);
        let n = draw.below(500);
        let (whole, whole_log) = go(Runner::Plain, &rom, &schedule, &start, n);
        for runner in [Runner::Plain, Runner::Skipping] {
            let mut log = vec![0xA5; draw.below(80) as usize];
            let answer = run(runner, &rom, &schedule, &start, &mut log, n);
            assert_eq!(answer.written % 8, 0);
            assert_eq!(log[..answer.written], whole_log[..answer.written]);
            assert!(log[answer.written..].iter().all(|&byte| byte == 0xA5));
            if answer.number == 3 {
                full += 1;
                assert!(log.len() - answer.written < 16);
            } else {
                assert_eq!((answer.number, answer.cycles), (whole.number, whole.cycles));
                assert_eq!(answer.state, whole.state);
            }
        }
    }
    assert!(full > 100, "{full}");
}

#[test]
fn the_coverage_counts_each_instruction_begun() {
    let draw = &mut Draw::new(27);
    for runner in [Runner::Plain, Runner::Skipping] {
        let mut coverage = Coverage::new();
        let mut begun = 0;
        for _ in 0..3_000 {
            let (rom, schedule, start) = any_panel(draw);
            let mut log = vec![0; 16_000];
            let answer = run_observed(
                runner,
                &rom,
                &schedule,
                &start,
                &mut log,
                1_000,
                &mut coverage,
            );
            begun += answer.begun;
            let (same, _) = go(runner, &rom, &schedule, &start, 1_000);
            assert_eq!(answer, same);
        }
        let counted = coverage.plain.iter().chain(&coverage.skipped).sum::<u64>();
        assert_eq!(counted, begun);
        for code in 0..=255 {
            let plain = coverage.plain[usize::from(code)] > 0;
            let skipped = coverage.skipped[usize::from(code)] > 0;
            let never_plain = is_none(code) || always_skips(code);
            assert_eq!(plain, !never_plain, "code {code:02X}");
            assert_eq!(skipped, can_skip(code), "code {code:02X}");
        }
    }
}

#[test]
fn the_coverage_is_the_same_with_jumps() {
    let rom = rom(&[LOOP]);
    let mut counts = Vec::new();
    for runner in [Runner::Plain, Runner::Skipping] {
        let mut coverage = Coverage::new();
        let start = waiting(101);
        run_observed(runner, &rom, &[], &start, &mut [], 200, &mut coverage);
        assert_eq!((coverage.plain[0x05], coverage.skipped[0x05]), (51, 1));
        assert_eq!(coverage.plain[0xD2], 51);
        counts.push(coverage);
    }
    assert_eq!(counts[0], counts[1]);
}

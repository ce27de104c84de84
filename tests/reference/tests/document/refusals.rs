//! "Numbers, by whose hand": the refusals of a run and their order.

use reference::{Answer, Runner, State, Version};

use crate::common::*;

const BOTH: [Runner; 2] = [Runner::Plain, Runner::Skipping];

/// Runs with a log of a pattern, and checks that a refused run changed nothing.
fn number(rom: &[u8], schedule: &[u8], state: &State, n: u64) -> u8 {
    let mut numbers = BOTH.map(|runner| {
        let mut log = [0xA5; 64];
        let answer = run(runner, rom, schedule, state, &mut log, n);
        if answer.refused {
            let number = answer.number;
            assert_ne!(number, 0);
            assert_eq!(log, [0xA5; 64]);
            let expected = Answer {
                number,
                refused: true,
                state: state.clone(),
                cycles: 0,
                clocks: 0,
                begun: 0,
                written: 0,
                steps: 0,
            };
            assert_eq!(answer, expected);
        }
        answer.number
    });
    numbers.sort_unstable();
    assert_eq!(numbers[0], numbers[1]);
    numbers[0]
}

#[test]
fn in_their_order() {
    // Everything wrong at once, mended one by one.
    let mut state = State::fresh();
    state.acc = 16;
    state.cycle = LAST_CYCLE;
    let mut lines = vec![0xFF; 40_961];
    assert_eq!(number(&[0x45; 1_999], &lines, &state, 1), 21);
    assert_eq!(number(&[0x45; 2_001], &lines, &state, 1), 21);
    assert_eq!(number(&[], &lines, &state, 1), 21);
    let rom = [0x45; 2_000];
    assert_eq!(number(&rom, &lines, &state, 1), 12);
    lines.truncate(40_959);
    assert_eq!(number(&rom, &lines, &state, 1), 11);
    lines.truncate(20);
    assert_eq!(number(&rom, &lines, &state, 1), 13);
    lines[8..10].copy_from_slice(&[1, 0]);
    assert_eq!(number(&rom, &lines, &state, 1), 13);
    lines[18..20].copy_from_slice(&[0, 2]);
    assert_eq!(number(&rom, &lines, &state, 1), 13);
    lines[19] = 1;
    assert_eq!(number(&rom, &lines, &state, 1), 14);
    lines[0] = 0;
    assert_eq!(number(&rom, &lines, &state, 1), 34);
    state.acc = 15;
    assert_eq!(number(&rom, &lines, &state, 1), 2);
    state.cycle -= 1;
    assert_eq!(number(&rom, &lines, &state, 1), 23);
}

#[test]
fn the_length_of_the_schedule() {
    let state = State::fresh();
    let rom = rom(&[]);
    for (length, refusal) in [
        (40_969, 12),
        (40_970, 12),
        (40_961, 12),
        (1, 11),
        (9, 11),
        (11, 11),
        (40_951, 11),
    ] {
        assert_eq!(number(&rom, &vec![0; length], &state, 0), refusal);
    }
    assert_eq!(number(&rom, &[], &state, 0), 0);
}

#[test]
fn the_records_of_the_schedule() {
    let state = State::fresh();
    let rom = rom(&[]);
    // The first record may have any cycle.
    for cycle in [0, 1, LAST_CYCLE] {
        assert_eq!(number(&rom, &record(cycle, 0, 0, 0), &state, 0), 0);
    }
    for int in 2..=255 {
        assert_eq!(number(&rom, &record(0, 0, 0, int), &state, 0), 13);
    }
    for res in 0..=255 {
        let refusal = if res > 1 { 13 } else { 0 };
        assert_eq!(
            number(&rom, &reset_record(0, 0, 0, 1, res), &state, 0),
            refusal
        );
    }
    // The cycles rise strictly.
    for (first, second, refusal) in [(0, 0, 14), (5, 5, 14), (5, 4, 14), (5, 6, 0), (256, 1, 14)] {
        let lines = schedule(&[(first, 0, 0, 1), (second, 0, 0, 1)]);
        assert_eq!(number(&rom, &lines, &state, 0), refusal);
    }
    // 13 before 14 inside a record, an earlier 14 before a later 13.
    let lines = schedule(&[(5, 0, 0, 1), (5, 0, 0, 2)]);
    assert_eq!(number(&rom, &lines, &state, 0), 13);
    let lines = schedule(&[(5, 0, 0, 1), (5, 0, 0, 1), (6, 0, 0, 2)]);
    assert_eq!(number(&rom, &lines, &state, 0), 14);
    // A fault far behind the run is refused too, and a sound past isn't.
    let lines = schedule(&[(5, 0, 0, 1), (1 << 40, 0, 0, 2)]);
    assert_eq!(number(&rom, &lines, &state, 1), 13);
    let mut late = State::fresh();
    late.cycle = 1_000;
    assert_eq!(number(&rom, &schedule(&[(5, 0, 0, 1)]), &late, 3), 0);
}

/// States with one field above its width or rule.
pub fn faulty_states() -> Vec<State> {
    let changes: [fn(&mut State); 27] = [
        |s| s.pc = 0x800,
        |s| s.stack[0] = 0x800,
        |s| s.stack[1] = 0xFFFF,
        |s| s.stack[2] = 0x800,
        |s| s.acc = 16,
        |s| s.carry = 2,
        |s| s.saved = 2,
        |s| s.dph = 8,
        |s| s.dpl = 16,
        |s| s.int = 2,
        |s| s.inte = 2,
        |s| s.tm = 2,
        |s| s.level = 2,
        |s| s.mark = 5,
        |s| s.owed = 4,
        |s| s.register = 64,
        |s| (s.register, s.counter) = (1, 64),
        |s| (s.register, s.counter) = (0, 1),
        |s| s.ports[0] = 16,
        |s| s.ports[5] = 16,
        |s| s.ports[6] = 8,
        |s| s.ram[0] = 16,
        |s| s.ram[95] = 16,
        |s| s.cycle = LAST_CYCLE + 1,
        |s| s.cycle = u64::MAX,
        |s| s.count = 5,
        |s| s.count = 255,
    ];
    changes
        .iter()
        .map(|change| {
            let mut state = State::fresh();
            change(&mut state);
            state
        })
        .collect()
}

#[test]
fn a_field_of_the_state() {
    for state in faulty_states() {
        assert_eq!(number(&rom(&[]), &[], &state, 0), 34);
        assert_eq!(number(&rom(&[]), &[], &state, u64::MAX), 34);
    }
}

#[test]
fn states_that_no_run_reaches_are_taken() {
    let changes: [fn(&mut State); 9] = [
        |s| (s.tm, s.register) = (1, 5),
        |s| s.mark = STM,
        |s| (s.mark, s.register, s.counter) = (STM, 7, 63),
        |s| s.mark = EI,
        |s| (s.mark, s.owed) = (EI, 3),
        |s| (s.mark, s.owed) = (LDI, 3),
        |s| s.mark = LI,
        |s| (s.mark, s.owed) = (LI, 3),
        |s| (s.pc, s.stack) = (0x7FF, [0x7FF, 0x7D0, 0x7E0]),
    ];
    for change in changes {
        let mut state = State::fresh();
        change(&mut state);
        assert_eq!(number(&rom(&[]), &[], &state, 0), 0);
        assert_eq!(save(Version::One, &state, &mut [0; 81]), 0);
        assert_eq!(save(Version::Two, &state, &mut [0; 82]), 0);
    }
}

#[test]
fn the_cycle_limit() {
    let mut state = State::fresh();
    assert_eq!(number(&rom(&[]), &[], &state, LAST_CYCLE + 1), 2);
    assert_eq!(number(&rom(&[]), &[], &state, u64::MAX), 2);
    state.cycle = LAST_CYCLE;
    assert_eq!(number(&rom(&[]), &[], &state, 0), 0);
    assert_eq!(number(&rom(&[]), &[], &state, 1), 2);
    assert_eq!(number(&rom(&[]), &[], &state, u64::MAX), 2);
}

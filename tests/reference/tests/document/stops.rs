//! Stops 22, 23 and 3: "the cycle isn't begun, and the answer stands at its boundary".

use reference::{Runner, State};

use crate::common::*;

const BOTH: [Runner; 2] = [Runner::Plain, Runner::Skipping];

/// A state at this address with the timer about to set TM and a high level seen, so that a cycle
/// begun would show.
fn at(pc: u16) -> State {
    let mut state = State::fresh();
    state.pc = pc;
    state.register = 32;
    state.cycle = 50;
    state
}

/// The number of a run of one cycle in which INT falls, with this log; a stop must have changed
/// nothing.
fn stop(rom: &[u8], lines_ab: u8, state: &State, room: usize) -> u8 {
    let lines = schedule(&[(state.cycle, lines_ab, 0, 0)]);
    let numbers = BOTH.map(|runner| {
        let mut log = vec![0xA5; room];
        let answer = run(runner, rom, &lines, state, &mut log, 1);
        assert!(!answer.refused);
        if answer.number == 0 {
            assert_eq!((answer.cycles, answer.steps, answer.clocks), (1, 1, 4));
            assert_eq!((answer.state.tm, answer.state.level), (1, 0));
        } else {
            assert_eq!(&answer.state, state);
            assert_eq!((answer.cycles, answer.steps, answer.clocks), (0, 0, 0));
            assert_eq!((answer.begun, answer.written), (0, 0));
            assert_eq!(log, vec![0xA5; room]);
        }
        answer.number
    });
    assert_eq!(numbers[0], numbers[1]);
    numbers[0]
}

#[test]
fn the_byte_at_pc_above_the_rom() {
    for pc in 0x7D0..=0x7FF {
        assert_eq!(stop(&rom(&[]), 0, &at(pc), 16), 22);
    }
    assert_eq!(stop(&rom(&[]), 0, &at(0x7CF), 16), 0);
}

#[test]
fn the_second_byte_above_the_rom() {
    for code in (0x14..=0x17).chain([0x1E]).chain(0xA0..=0xAF) {
        let mut state = at(0x7CF);
        assert_eq!(stop(&rom(&[(0x7CF, &[code])]), 0, &state, 16), 22);
        // Before stop 3.
        assert_eq!(stop(&rom(&[(0x7CF, &[code])]), 0, &state, 0), 22);
        // Also of an LDI that is a NOP.
        state.mark = LDI;
        assert_eq!(stop(&rom(&[(0x7CF, &[code])]), 0, &state, 16), 22);
    }
}

#[test]
fn a_code_that_is_no_instruction() {
    for code in [0x1C, 0x45] {
        for pc in [0x000, 0x123, 0x7CF] {
            let rom = rom(&[(usize::from(pc), &[code])]);
            assert_eq!(stop(&rom, 0, &at(pc), 0), 23);
            assert_eq!(stop(&rom, 0, &at(pc), 16), 23);
        }
    }
}

#[test]
fn the_byte_a_skip_passes_over_above_the_rom() {
    // Code at 7CF, a state in which it skips and one in which it doesn't.
    type Change = fn(&mut State);
    let cases: [(u8, Change, Change); 22] = [
        (0x04, |s| s.carry = 1, |_| {}),
        (0x05, |s| s.tm = 1, |_| {}),
        (
            0x08,
            |s| (s.acc, s.ram[0]) = (8, 8),
            |s| (s.acc, s.ram[0]) = (8, 7),
        ),
        (0x09, |s| (s.acc, s.carry) = (15, 1), |s| s.acc = 15),
        (0x0C, |_| {}, |s| s.acc = 1),
        (0x0D, |s| s.acc = 15, |_| {}),
        (0x0F, |_| {}, |s| s.acc = 15),
        (0x13, |_| {}, |s| s.dpl = 15),
        (0x1D, |s| s.ram[0] = 15, |_| {}),
        (0x1F, |_| {}, |s| s.ram[0] = 15),
        (0x21, |_| {}, |s| s.ram[89] = 2),
        (0x26, |s| s.acc = 4, |s| s.acc = 11),
        (0x2C, |s| s.acc = 3, |s| s.dpl = 1),
        (0x33, |s| s.dpl = 15, |_| {}),
        (0x36, |_| {}, |s| s.acc = 4),
        (0x3C, |s| s.dpl = 15, |_| {}),
        (0x49, |s| s.stack[0] = 0x7D0, |s| s.stack[0] = 0x7CF),
        (0x49, |s| s.stack[0] = 0x7FF, |s| s.stack[0] = 0x100),
        (0x59, |s| s.ram[0] = 2, |s| s.ram[0] = 13),
        (0x5D, |s| s.ram[89] = 2, |_| {}),
        (0x50, |s| s.dpl = 0, |s| s.dpl = 1),
        (0x54, |_| {}, |s| s.acc = 1),
    ];
    for (code, skips, passes) in cases {
        let rom = rom(&[(0x7CF, &[code])]);
        let mut state = at(0x7CF);
        skips(&mut state);
        // The line A is 1, B is 0.
        assert_eq!(stop(&rom, 0x10, &state, 0), 22, "code {code:02X}");
        let mut state = at(0x7CF);
        passes(&mut state);
        let line = if code == 0x54 { 0x00 } else { 0x10 };
        assert_eq!(stop(&rom, line, &state, 0), 0, "code {code:02X}");
    }
}

#[test]
fn the_byte_after_a_skipping_instruction_of_two_bytes() {
    for (code, second, number) in [(0x16, 3, 22), (0x17, 3, 22), (0x16, 4, 0), (0x17, 4, 0)] {
        let mut state = at(0x7CE);
        state.acc = 3;
        state.dpl = 3;
        let rom = rom(&[(0x7CE, &[code, second])]);
        assert_eq!(stop(&rom, 0, &state, 0), number);
    }
}

#[test]
fn only_the_first_byte_of_what_is_skipped_is_needed() {
    let mut state = at(0x7CE);
    state.carry = 1;
    for code in [0x17, 0x1C] {
        let rom = rom(&[(0x7CE, &[0x04, code])]);
        assert_eq!(stop(&rom, 0, &state, 0), 0);
        let state = after(&rom, &[], &state, 1);
        assert_eq!(state.pc, if code == 0x17 { 0x7D1 } else { 0x7D0 });
    }
}

#[test]
fn tit_skips_by_the_fall_of_this_cycle() {
    // The stop is known only with the line of the cycle, which isn't begun all the same.
    let rom = rom(&[(0x7CF, &[0x03])]);
    let mut state = at(0x7CF);
    assert_eq!(stop(&rom, 0, &state, 0), 22);
    state.level = 0;
    assert_eq!(stop(&rom, 0, &state, 0), 0);
    state.int = 1;
    assert_eq!(stop(&rom, 0, &state, 0), 22);
}

#[test]
fn rts_needs_the_byte_at_the_popped_address_and_rt_does_not() {
    let mut state = at(0x100);
    state.stack = [0x7D0, 0x200, 0x300];
    assert_eq!(stop(&rom(&[(0x100, &[0x49])]), 0, &state, 0), 22);
    assert_eq!(stop(&rom(&[(0x100, &[0x48])]), 0, &state, 0), 0);
    // An RTS at 7CF with its return inside the ROM needs nothing above it.
    let mut state = at(0x7CF);
    state.stack = [0x100, 0x200, 0x300];
    assert_eq!(stop(&rom(&[(0x7CF, &[0x49])]), 0, &state, 0), 0);
}

#[test]
fn the_room_in_the_log() {
    let mut state = at(0x100);
    state.dpl = 5;
    for code in [0x0E, 0x44, 0x60, 0x63, 0x64, 0x67, 0x70, 0x73, 0x74, 0x77] {
        let rom = rom(&[(0x100, &[code])]);
        assert_eq!(stop(&rom, 0, &state, 0), 3);
        assert_eq!(stop(&rom, 0, &state, 7), 3);
        assert_eq!(stop(&rom, 0, &state, 8), 0);
    }
    let rom = rom(&[(0x100, &[0x1E, 0xA5])]);
    assert_eq!(stop(&rom, 0, &state, 8), 3);
    assert_eq!(stop(&rom, 0, &state, 15), 3);
    assert_eq!(stop(&rom, 0, &state, 16), 0);
}

#[test]
fn after_stop_3_a_new_log_goes_on() {
    // OE twice with room for one and a tail.
    let rom = rom(&[(0, &[0x95, 0x44, 0x44, 0xC0])]);
    let mut log = [0xA5; 15];
    let answer = run(Runner::Plain, &rom, &[], &State::fresh(), &mut log, 100);
    assert_eq!((answer.number, answer.cycles, answer.begun), (3, 3, 2));
    assert_eq!((answer.written, answer.state.pc), (8, 2));
    assert_eq!(log[..8], written(1, 4, 5));
    assert_eq!(log[8..], [0xA5; 7]);
    let answer = run(Runner::Plain, &rom, &[], &answer.state, &mut log, 2);
    assert_eq!((answer.number, answer.written), (0, 8));
    assert_eq!(log[..8], written(3, 4, 5));
}

#[test]
fn the_fall_of_a_stopped_cycle_is_seen_when_it_is_run() {
    let rom = rom(&[(0, &[0x44])]);
    let lines = schedule(&[(0, 0, 0, 0)]);
    let start = State::fresh();
    let answer = run(Runner::Plain, &rom, &lines, &start, &mut [], 4);
    assert_eq!((answer.number, &answer.state), (3, &start));
    let answer = run(Runner::Plain, &rom, &lines, &answer.state, &mut [0; 8], 1);
    assert_eq!((answer.number, answer.state.int), (0, 1));
}

#[test]
fn owed_cycles_and_acceptances_never_stop() {
    let rom = rom(&[(0x100, &[0x1C])]);
    for pc in [0x100, 0x7D0, 0x7FF] {
        let mut state = at(pc);
        state.owed = 2;
        assert_eq!(stop(&rom, 0, &state, 0), 0);
        let mut state = at(pc);
        state.int = 1;
        state.inte = 1;
        assert_eq!(stop(&rom, 0, &state, 0), 0);
        state.mark = EI;
        assert_ne!(stop(&rom, 0, &state, 0), 0);
    }
}

#[test]
fn n_cycles_done_look_no_further() {
    let rom = rom(&[(3, &[0x1C])]);
    for runner in BOTH {
        let (answer, _) = go(runner, &rom, &[], &State::fresh(), 3);
        assert_eq!((answer.number, answer.cycles), (0, 3));
        let (stopped, _) = go(runner, &rom, &[], &State::fresh(), 4);
        assert_eq!((stopped.number, stopped.cycles), (23, 3));
        assert_eq!(stopped.state, answer.state);
        let (answer, _) = go(runner, &rom, &[], &answer.state, 0);
        assert_eq!((answer.number, answer.cycles), (0, 0));
        assert_eq!(stopped.state, answer.state);
    }
}

//! "Bench cases, and what misleads".

use reference::{Runner, State, Version};

use crate::common::*;

/// The word of X in the RAM array.
const X: usize = 95;

#[test]
fn stm_80_lets_ttm_skip_at_65_and_not_at_64() {
    // STM takes cycles 0 and 1, then one NOP a cycle: the address is the cycle.
    for (cycle, skips) in [(63, false), (64, false), (65, true), (66, true)] {
        let rom = rom(&[(0, &[0x14, 0x80]), (cycle, &[0x05])]);
        let state = after(&rom, &[], &State::fresh(), cycle as u64 + 1);
        assert_eq!(usize::from(state.pc), cycle + 1 + usize::from(skips));
        assert_eq!(state.owed, u8::from(skips));
    }
}

#[test]
fn stm_bf_lets_ttm_skip_at_4_034_and_not_at_4_033() {
    // STM, JMP 200, then field 2 is walked round.
    for (cycle, skips) in [(4_033_u64, false), (4_034, true)] {
        let at = 0x200 + (cycle as usize - 4) % 256;
        let rom = rom(&[(0, &[0x14, 0xBF, 0xA2, 0x00]), (at, &[0x05])]);
        let state = after(&rom, &[], &State::fresh(), cycle);
        assert_eq!((usize::from(state.pc), state.owed), (at, 0));
        let state = after(&rom, &[], &state, 1);
        assert_eq!(usize::from(state.pc), at + 1 + usize::from(skips));
        assert_eq!(state.owed, u8::from(skips));
    }
}

#[test]
fn tc_with_c_costs_3_before_ci_and_2_before_nop() {
    let mut start = State::fresh();
    start.carry = 1;
    for (code, bytes) in [(0x17, 2), (0x00, 1)] {
        let rom = rom(&[(0, &[0x04, code])]);
        let costs = 1 + u64::from(bytes);
        let (answer, _) = go(Runner::Plain, &rom, &[], &start, costs);
        assert_eq!((answer.state.owed, answer.begun), (0, 1));
        assert_eq!(answer.state.pc, 1 + bytes);
        let (answer, _) = go(Runner::Plain, &rom, &[], &start, costs - 1);
        assert_eq!((answer.state.owed, answer.begun), (1, 1));
        let (answer, _) = go(Runner::Plain, &rom, &[], &start, costs + 1);
        assert_eq!((answer.state.owed, answer.begun), (0, 2));
    }
}

#[test]
fn nop_at_1ff_leads_to_100() {
    let mut start = State::fresh();
    start.pc = 0x1FF;
    assert_eq!(after(&rom(&[]), &[], &start, 1).pc, 0x100);
}

#[test]
fn bf_calls_03c() {
    let mut start = State::fresh();
    start.pc = 0x234;
    let state = after(&rom(&[(0x234, &[0xBF])]), &[], &start, 1);
    assert_eq!((state.pc, state.stack), (0x03C, [0x235, 0, 0]));
}

#[test]
fn dem_in_row_5_skips_and_stores_nothing() {
    let mut start = State::fresh();
    start.dph = 5;
    start.dpl = 3;
    start.ram = [7; 96];
    let state = after(&rom(&[(0, &[0x1F])]), &[], &start, 1);
    assert_eq!((state.pc, state.owed), (2, 1));
    assert_eq!(state.ram, start.ram);
}

#[test]
fn xhx_with_dph_5_and_x_9_gives_dph_1_and_x_5() {
    let mut start = State::fresh();
    start.dph = 5;
    start.ram[X] = 9;
    let state = after(&rom(&[(0, &[0x4F])]), &[], &start, 1);
    assert_eq!((state.dph, state.ram[X]), (1, 5));
}

#[test]
fn rar_of_1_without_c_gives_0_and_c() {
    let mut start = State::fresh();
    start.acc = 1;
    let state = after(&rom(&[(0, &[0x30])]), &[], &start, 1);
    assert_eq!((state.acc, state.carry), (0, 1));
}

#[test]
fn ads_of_9_and_8_and_1_gives_2_and_c_and_skips() {
    let mut start = State::fresh();
    start.acc = 9;
    start.ram[0] = 8;
    start.carry = 1;
    let state = after(&rom(&[(0, &[0x09])]), &[], &start, 1);
    assert_eq!((state.acc, state.carry), (2, 1));
    assert_eq!((state.pc, state.owed), (2, 1));
}

#[test]
fn jcp_c5_at_03f_goes_to_005() {
    let mut start = State::fresh();
    start.pc = 0x03F;
    assert_eq!(after(&rom(&[(0x03F, &[0xC5])]), &[], &start, 1).pc, 0x005);
}

#[test]
fn with_int_set_the_acceptance_follows_the_nop_after_ei() {
    let mut start = State::fresh();
    start.int = 1;
    let rom = rom(&[(0, &[0x31])]);
    let state = after(&rom, &[], &start, 2);
    assert_eq!((state.pc, state.int, state.inte), (2, 1, 1));
    let (answer, _) = go(Runner::Plain, &rom, &[], &start, 3);
    let state = answer.state;
    assert_eq!((state.pc, state.int, state.inte), (0x03C, 0, 0));
    assert_eq!((state.stack, state.mark, state.owed), ([2, 0, 0], OTHER, 0));
    assert_eq!((answer.begun, answer.cycles), (2, 3));
}

#[test]
fn a_fourth_call_loses_the_first_return() {
    let rom = rom(&[
        (0x000, &[0xA9, 0x00]),
        (0x100, &[0xAA, 0x10]),
        (0x210, &[0xAB, 0x20]),
        (0x320, &[0xB1]),
        (0x004, &[0x48]),
        (0x321, &[0x48]),
        (0x212, &[0x48]),
        (0x102, &[0x48]),
    ]);
    let state = after(&rom, &[], &State::fresh(), 6);
    assert_eq!((state.pc, state.stack), (0x320, [0x212, 0x102, 0x002]));
    let state = after(&rom, &[], &state, 1);
    assert_eq!((state.pc, state.stack), (0x004, [0x321, 0x212, 0x102]));
    // Three returns, and a fourth that finds the lowest again.
    for (cycles, pc) in [(2, 0x321), (4, 0x212), (6, 0x102), (8, 0x102)] {
        assert_eq!(after(&rom, &[], &state, cycles).pc, pc);
    }
    assert_eq!(after(&rom, &[], &state, 8).stack, [0x102; 3]);
}

#[test]
fn a_schedule_of_40_960_bytes_is_taken_and_40_970_gives_12() {
    let mut lines: Vec<u8> = (0..4_096).flat_map(|at| record(at, 0, 0, 1)).collect();
    let (answer, _) = go(Runner::Plain, &rom(&[]), &lines, &State::fresh(), 5);
    assert_eq!(
        (answer.number, answer.refused, answer.cycles),
        (0, false, 5)
    );
    lines.extend(record(4_096, 0, 0, 1));
    let (answer, _) = go(Runner::Plain, &rom(&[]), &lines, &State::fresh(), 5);
    assert_eq!(
        (answer.number, answer.refused, answer.cycles),
        (12, true, 0)
    );
}

#[test]
fn the_cycle_limit_reached_exactly_is_taken() {
    let mut start = State::fresh();
    start.cycle = LAST_CYCLE - 10;
    for runner in [Runner::Plain, Runner::Skipping] {
        let (answer, _) = go(runner, &rom(&[]), &[], &start, 10);
        assert_eq!((answer.number, answer.cycles), (0, 10));
        assert_eq!(answer.state.cycle, LAST_CYCLE);
        let (answer, _) = go(runner, &rom(&[]), &[], &start, 11);
        assert_eq!((answer.number, answer.refused, answer.cycles), (2, true, 0));
        assert_eq!(answer.state, start);
    }
}

#[test]
fn misleading_ad_sets_c() {
    let mut start = State::fresh();
    start.acc = 9;
    start.ram[0] = 9;
    for carry in [0, 1] {
        start.carry = carry;
        let state = after(&rom(&[(0, &[0x08])]), &[], &start, 1);
        assert_eq!((state.acc, state.carry, state.owed), (2, carry, 1));
    }
}

#[test]
fn misleading_pc_carries_into_the_next_field() {
    let rom = rom(&[(0x2FF, &[0x17]), (0x200, &[0x03]), (0x300, &[0x04])]);
    let mut start = State::fresh();
    start.pc = 0x2FF;
    start.acc = 3;
    let state = after(&rom, &[], &start, 1);
    assert_eq!((state.pc, state.owed), (0x202, 2));
}

#[test]
fn misleading_owed_cycles_are_dropped_on_save() {
    let mut start = State::fresh();
    start.carry = 1;
    let rom = rom(&[(0, &[0x04, 0x17])]);
    let state = after(&rom, &[], &start, 1);
    for version in Version::BOTH {
        let mut image = vec![0; version.length()];
        assert_eq!(save(version, &state, &mut image), 0);
        assert_eq!(image[17], 2);
        let (number, restored) = restore(&image);
        assert_eq!((number, restored.owed), (0, 2));
        assert_eq!(after(&rom, &[], &restored, 2).pc, 3);
    }
}

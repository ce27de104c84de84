//! Places where the order of the steps or a rule of the machine decides.

use reference::{Runner, State};

use crate::common::*;

fn at(pc: u16) -> State {
    let mut state = State::fresh();
    state.pc = pc;
    state
}

#[test]
fn word_79_is_row_7_column_9() {
    // SFB 2 sets it, and LDI 79, LM reads it.
    let rom = rom(&[(0, &[0x7E, 0x15, 0x79, 0x38])]);
    let state = after(&rom, &[], &State::fresh(), 5);
    assert_eq!((state.acc, state.dph, state.dpl), (4, 7, 9));
    assert_eq!(state.ram[80 + 9], 4);
    assert_eq!(state.ram[79], 0);
}

#[test]
fn step_a_looks_at_int_before_the_lines_are_taken() {
    let mut start = at(0x100);
    start.inte = 1;
    let lines = schedule(&[(0, 0, 0, 0)]);
    // The fall at cycle 0: the NOP due still runs, and the acceptance follows at cycle 1.
    let state = after(&rom(&[]), &lines, &start, 1);
    assert_eq!((state.pc, state.int, state.level), (0x101, 1, 0));
    let state = after(&rom(&[]), &lines, &state, 1);
    assert_eq!((state.pc, state.int, state.inte), (0x03C, 0, 0));
    assert_eq!(state.stack, [0x101, 0, 0]);
}

#[test]
fn a_fall_in_the_acceptance_cycle_is_kept() {
    let mut start = at(0x100);
    start.inte = 1;
    start.int = 1;
    let state = after(&rom(&[]), &schedule(&[(0, 0, 0, 0)]), &start, 1);
    assert_eq!((state.pc, state.int, state.inte), (0x03C, 1, 0));
    assert_eq!(state.level, 0);
}

#[test]
fn a_fall_needs_the_level_seen_to_be_high() {
    let mut start = State::fresh();
    let low = schedule(&[(0, 0, 0, 0)]);
    assert_eq!(after(&rom(&[]), &low, &start, 1).int, 1);
    start.level = 0;
    assert_eq!(after(&rom(&[]), &low, &start, 1).int, 0);
    // A rise only updates the level; without a record the line is high.
    let state = after(&rom(&[]), &[], &start, 1);
    assert_eq!((state.int, state.level), (0, 1));
}

#[test]
fn a_fall_in_an_owed_cycle_counts() {
    // JMP takes cycles 0 and 1, the line falls at 1 and rises at 2.
    let mut start = State::fresh();
    start.inte = 1;
    let rom = rom(&[(0, &[0xA2, 0x00])]);
    let lines = schedule(&[(1, 0, 0, 0), (2, 0, 0, 1)]);
    let state = after(&rom, &lines, &start, 2);
    assert_eq!((state.pc, state.int, state.owed), (0x200, 1, 0));
    let state = after(&rom, &lines, &state, 1);
    assert_eq!((state.pc, state.level, state.stack[0]), (0x03C, 1, 0x200));
}

#[test]
fn the_acceptance_waits_for_the_cycles_of_a_skip() {
    let mut start = State::fresh();
    start.inte = 1;
    start.carry = 1;
    let rom = rom(&[(0, &[0x04, 0x17])]);
    let lines = schedule(&[(0, 0, 0, 0)]);
    // TC at 0, its skip at 1 and 2, the acceptance at 3.
    let state = after(&rom, &lines, &start, 3);
    assert_eq!((state.pc, state.int), (3, 1));
    let state = after(&rom, &lines, &start, 4);
    assert_eq!((state.pc, state.stack), (0x03C, [3, 0, 0]));
}

#[test]
fn all_effects_come_in_the_first_cycle() {
    // IA sees the lines of its first cycle, OE logs it.
    let rom_ia = rom(&[(0, &[0x40])]);
    let lines = schedule(&[(0, 0x50, 0, 1), (1, 0xA0, 0, 1)]);
    assert_eq!(after(&rom_ia, &lines, &State::fresh(), 1).acc, 5);
    assert_eq!(after(&rom_ia, &lines, &State::fresh(), 2).acc, 5);

    let mut start = State::fresh();
    start.acc = 9;
    start.cycle = 77;
    let (answer, log) = go(Runner::Plain, &rom(&[(0, &[0x44])]), &[], &start, 1);
    assert_eq!((answer.state.ports[2], answer.state.owed), (9, 1));
    assert_eq!(log, written(77, 4, 9));
}

#[test]
fn tit_sees_and_clears_the_int_of_its_own_cycle() {
    let rom = rom(&[(0, &[0x03])]);
    let state = after(&rom, &schedule(&[(0, 0, 0, 0)]), &State::fresh(), 1);
    assert_eq!((state.int, state.level), (0, 0));
    assert_eq!((state.pc, state.owed), (2, 1));
    let state = after(&rom, &[], &State::fresh(), 1);
    assert_eq!((state.pc, state.owed), (1, 0));
}

#[test]
fn ei_after_ei_is_never_interrupted() {
    let mut start = State::fresh();
    start.int = 1;
    let rom = rom(&[(0, &[0x31, 0x31, 0x31, 0x31, 0x40])]);
    // Four EI, then IA with its owed cycle, then the acceptance.
    let state = after(&rom, &[], &start, 6);
    assert_eq!((state.pc, state.owed, state.int), (5, 0, 1));
    let state = after(&rom, &[], &start, 7);
    assert_eq!((state.pc, state.stack[0]), (0x03C, 5));
}

#[test]
fn di_after_ei_keeps_the_interrupt_away() {
    let mut start = State::fresh();
    start.int = 1;
    let rom = rom(&[(0, &[0x31, 0x01])]);
    let state = after(&rom, &[], &start, 9);
    assert_eq!((state.pc, state.int, state.inte), (9, 1, 0));
}

#[test]
fn mark_stm_does_not_keep_the_interrupt_away() {
    for mark in [OTHER, STM] {
        let mut start = at(0x7FF);
        start.mark = mark;
        start.int = 1;
        start.inte = 1;
        let (answer, _) = go(Runner::Plain, &rom(&[]), &[], &start, 1);
        let state = answer.state;
        assert_eq!(
            (state.pc, state.stack[0], state.mark),
            (0x03C, 0x7FF, OTHER)
        );
        assert_eq!((answer.cycles, answer.begun, answer.steps), (1, 0, 1));
    }
}

#[test]
fn the_first_of_several_ldi_counts() {
    let rom = rom(&[(0, &[0x15, 0x12, 0x15, 0x34, 0x15, 0x56, 0x00, 0x15, 0x78])]);
    let (answer, _) = go(Runner::Plain, &rom, &[], &State::fresh(), 6);
    let state = answer.state;
    assert_eq!((state.dph, state.dpl, state.mark), (1, 2, LDI));
    assert_eq!((state.pc, answer.begun), (6, 3));
    // After a NOP the next one loads.
    let state = after(&rom, &[], &state, 3);
    assert_eq!((state.dph, state.dpl, state.mark), (7, 8, LDI));
}

#[test]
fn the_first_of_several_li_counts() {
    // LI 5, LI 9, CLA, NOP, CLA, LI 7: CLA is LI with 0, at both ends.
    let rom = rom(&[(0, &[0x95, 0x99, 0x90, 0x00, 0x90, 0x97])]);
    for (n, acc, mark) in [
        (1, 5, LI),
        (2, 5, LI),
        (3, 5, LI),
        (4, 5, OTHER),
        (5, 0, LI),
        (6, 0, LI),
    ] {
        let (answer, _) = go(Runner::Plain, &rom, &[], &State::fresh(), n);
        let state = answer.state;
        assert_eq!((state.acc, state.mark, state.owed), (acc, mark, 0));
        assert_eq!((u64::from(state.pc), answer.begun), (n, n));
    }
}

#[test]
fn li_and_ldi_are_two_strings() {
    let rom = rom(&[(0, &[0x15, 0x12, 0x95, 0x15, 0x34, 0x99])]);
    let state = after(&rom, &[], &State::fresh(), 6);
    assert_eq!((state.dph, state.dpl, state.acc), (3, 4, 9));
    assert_eq!((state.pc, state.mark), (6, LI));
}

#[test]
fn an_edge_in_a_string_is_answered_behind_the_next_instruction() {
    // The string with its cycles, and the address behind the first instruction of another kind.
    let strings: [(&[u8], u64, u16); 5] = [
        (&[0x95], 1, 2),
        (&[0x95, 0x99, 0x92], 3, 4),
        (&[0x15, 0x12], 2, 3),
        (&[0x15, 0x12, 0x15, 0x34], 4, 5),
        (&[0x95, 0x15, 0x12, 0x99], 4, 5),
    ];
    for (string, cycles, behind) in strings {
        for fall in 0..cycles {
            let mut start = State::fresh();
            start.inte = 1;
            let rom = rom(&[(0, string)]);
            let lines = schedule(&[(fall, 0, 0, 0)]);
            let state = after(&rom, &lines, &start, cycles + 1);
            assert_eq!((state.pc, state.int, state.inte), (behind, 1, 1));
            let state = after(&rom, &lines, &state, 1);
            assert_eq!((state.pc, state.stack[0]), (0x03C, behind));
            assert_eq!((state.int, state.mark), (0, OTHER));
        }
    }
}

#[test]
fn ei_at_the_end_of_a_string_holds_the_interrupt_back_once_more() {
    let mut start = State::fresh();
    (start.int, start.inte) = (1, 1);
    start.mark = LI;
    // LI, EI, OE with its owed cycle, then the acceptance.
    let rom = rom(&[(0, &[0x95, 0x31, 0x44])]);
    let state = after(&rom, &[], &start, 4);
    assert_eq!((state.pc, state.owed, state.int), (3, 0, 1));
    let state = after(&rom, &[], &state, 1);
    assert_eq!((state.pc, state.stack[0]), (0x03C, 3));
}

#[test]
fn after_an_acceptance_the_next_load_acts() {
    // LI, or LDI, with the mark of its own kind before NOP, and as the first instruction of the answer.
    for (load, mark, dp_acc) in [
        ([0x15, 0x7F], LDI, (7, 15, 0)),
        ([0x99, 0x00], LI, (0, 0, 9)),
    ] {
        let mut start = State::fresh();
        start.mark = mark;
        start.int = 1;
        start.inte = 1;
        let rom = rom(&[(0x03C, &load)]);
        let state = after(&rom, &[], &start, 3);
        assert_eq!((state.dph, state.dpl, state.acc), dp_acc);
    }
}

#[test]
fn a_skipped_instruction_does_not_touch_the_mark() {
    // LDI, then CLI that skips an LDI: the mark is other, and the LDI after it loads.
    let rom = rom(&[(0, &[0x15, 0x03, 0x16, 0x03, 0x15, 0x11, 0x15, 0x22])]);
    let state = after(&rom, &[], &State::fresh(), 6);
    assert_eq!((state.pc, state.mark, state.owed), (6, OTHER, 0));
    let state = after(&rom, &[], &state, 1);
    assert_eq!((state.dph, state.dpl), (2, 2));
}

#[test]
fn an_acceptance_straight_after_stm_is_the_first_timer_step() {
    let mut start = State::fresh();
    start.inte = 1;
    let rom = rom(&[(0, &[0x14, 0x00])]);
    let lines = schedule(&[(0, 0, 0, 0)]);
    let state = after(&rom, &lines, &start, 2);
    assert_eq!((state.register, state.mark), (1, STM));
    let state = after(&rom, &lines, &state, 1);
    assert_eq!((state.pc, state.register, state.mark), (0x03C, 2, OTHER));
}

#[test]
fn stm_after_stm_restarts_the_interval() {
    let rom = rom(&[(0, &[0x14, 0x05, 0x14, 0x00])]);
    let state = after(&rom, &[], &State::fresh(), 4);
    assert_eq!((state.register, state.counter), (1, 0));
    let state = after(&rom, &[], &state, 62);
    assert_eq!(state.tm, 0);
    let state = after(&rom, &[], &state, 1);
    assert_eq!((state.tm, state.register, state.counter), (1, 0, 0));
}

#[test]
fn stm_clears_tm_and_the_timer_is_one_shot() {
    let rom = rom(&[(0, &[0x14, 0x00, 0xA1, 0x00])]);
    let mut start = State::fresh();
    start.tm = 1;
    let state = after(&rom, &[], &start, 1);
    assert_eq!(state.tm, 0);
    let state = after(&rom, &[], &state, 500);
    assert_eq!((state.tm, state.register, state.counter), (1, 0, 0));
}

#[test]
fn mark_stm_holds_the_timer_for_all_owed_cycles() {
    let mut start = State::fresh();
    start.mark = STM;
    start.owed = 3;
    start.register = 6;
    start.counter = 2;
    let state = after(&rom(&[]), &[], &start, 3);
    assert_eq!((state.register, state.counter, state.owed), (6, 2, 0));
    let state = after(&rom(&[]), &[], &state, 1);
    assert_eq!((state.register, state.counter), (12, 2));
}

#[test]
fn a_timer_that_runs_with_tm_set_steps_on() {
    let mut start = State::fresh();
    start.tm = 1;
    start.register = 1;
    start.counter = 1;
    for runner in [Runner::Plain, Runner::Skipping] {
        let (answer, _) = go(runner, &rom(&[]), &[], &start, 126);
        let state = answer.state;
        assert_eq!((state.tm, state.register, state.counter), (1, 0, 0));
        let (answer, _) = go(runner, &rom(&[]), &[], &start, 125);
        assert_ne!(answer.state.register, 0);
    }
}

#[test]
fn inm_in_rows_5_and_6_computes_1() {
    for row in [5, 6] {
        let mut start = State::fresh();
        start.dph = row;
        start.ram = [15; 96];
        let state = after(&rom(&[(0, &[0x1D])]), &[], &start, 1);
        assert_eq!((state.pc, state.ram), (1, start.ram));
        let state = after(&rom(&[(0, &[0x1F])]), &[], &start, 1);
        assert_eq!((state.pc, state.ram), (2, start.ram));
    }
}

#[test]
fn op_on_i_is_always_a_write_and_its_bit_3_never() {
    let mut start = State::fresh();
    start.dpl = 8;
    start.acc = 8;
    start.ports[6] = 5;
    let (answer, log) = go(Runner::Plain, &rom(&[(0, &[0x0E])]), &[], &start, 1);
    assert_eq!(answer.state.ports[6], 0);
    assert_eq!(log, written(0, 8, 0));
    for code in [0x63, 0x73] {
        let mut no_log = [];
        let rom = rom(&[(0, &[code])]);
        let answer = run(Runner::Plain, &rom, &[], &start, &mut no_log, 1);
        assert_eq!((answer.number, answer.begun, answer.written), (0, 1, 0));
        assert_eq!(answer.state.ports, start.ports);
    }
}

#[test]
fn writes_without_effect_need_no_room() {
    for (code, names) in [
        (0x0E, vec![0, 1, 9, 10, 11, 12, 13, 14, 15]),
        (0x60, vec![0, 1, 2, 3, 9, 10, 11, 12, 13, 14, 15]),
        (0x70, vec![0, 1, 2, 3, 9, 10, 11, 12, 13, 14, 15]),
    ] {
        for dpl in names {
            let mut start = State::fresh();
            start.dpl = dpl;
            start.acc = 15;
            start.ports = [6, 6, 6, 6, 6, 6, 6];
            let rom = rom(&[(0, &[code])]);
            let answer = run(Runner::Plain, &rom, &[], &start, &mut [], 1);
            assert_eq!((answer.number, answer.begun, answer.written), (0, 1, 0));
            assert_eq!(answer.state.ports, start.ports);
        }
    }
}

#[test]
fn a_write_that_changes_nothing_is_logged() {
    // SEB 1 twice, REB 0 with the bit clear.
    let rom = rom(&[(0, &[0x75, 0x75, 0x64])]);
    let (_, log) = go(Runner::Plain, &rom, &[], &State::fresh(), 6);
    let expected = [written(0, 4, 2), written(2, 4, 2), written(4, 4, 2)].concat();
    assert_eq!(log, expected);
}

#[test]
fn c_and_d_read_line_or_latch() {
    // Every pair of line and latch, by IP and by TPB of each bit; the other port's are the opposite.
    for port in [2, 3] {
        for (line, latch) in (0..=255).map(|pair| (pair / 16, pair % 16)) {
            let mut start = State::fresh();
            start.dpl = port;
            start.ports = [7; 7];
            start.ports[usize::from(port) - 2] = latch;
            start.ports[3 - usize::from(port)] = 15 - latch;
            let cd = if port == 2 {
                line << 4 | (15 - line)
            } else {
                (15 - line) << 4 | line
            };
            let lines = schedule(&[(0, 0xA5, cd, 1)]);
            let state = after(&rom(&[(0, &[0x32])]), &lines, &start, 1);
            let mut acc = 0;
            for b in 0..4 {
                let reads = line >> b & 1 == 1 || latch >> b & 1 == 1;
                acc += u8::from(reads) << b;
                let state = after(&rom(&[(0, &[0x50 + b])]), &lines, &start, 1);
                assert_eq!((state.pc, state.owed), if reads { (2, 1) } else { (1, 0) });
            }
            assert_eq!((state.acc, state.ports), (acc, start.ports));
        }
    }
}

#[test]
fn no_other_port_reads_its_latch_back() {
    let mut start = State::fresh();
    start.acc = 7;
    start.ports = [15, 15, 15, 15, 15, 15, 7];
    let lines = schedule(&[(0, 0xA5, 0x00, 1)]);
    // A and B have no latch, and behind D 0 is read, whatever the latch holds.
    for (port, read) in [(0, 10), (1, 5)].into_iter().chain((4..16).map(|p| (p, 0))) {
        start.dpl = port;
        assert_eq!(after(&rom(&[(0, &[0x32])]), &lines, &start, 1).acc, read);
        for b in 0..4 {
            let skipped = u16::from(read >> b & 1);
            let state = after(&rom(&[(0, &[0x50 + b])]), &lines, &start, 1);
            assert_eq!(state.pc, 1 + skipped);
        }
    }
    // IA and TPA read A, also where DPL names C.
    start.dpl = 2;
    assert_eq!(after(&rom(&[(0, &[0x40])]), &lines, &start, 1).acc, 10);
    for (b, pc) in [(0, 1), (1, 2), (2, 1), (3, 2)] {
        let state = after(&rom(&[(0, &[0x54 + b])]), &lines, &start, 1);
        assert_eq!(state.pc, pc);
    }
}

#[test]
fn the_latch_read_is_that_before_the_instruction() {
    // LDZ 2, LI 9, OP, IP, LI 4, OP, IP: each IP reads what the last OP wrote.
    let rom = rom(&[(0, &[0x82, 0x99, 0x0E, 0x32, 0x94, 0x0E, 0x32])]);
    assert_eq!(after(&rom, &[], &State::fresh(), 4).acc, 9);
    assert_eq!(after(&rom, &[], &State::fresh(), 7).acc, 4);
}

#[test]
fn tpb_at_7cf_needs_a_byte_above_because_of_the_latch() {
    let mut start = at(0x7CF);
    let rom = rom(&[(0x7CF, &[0x51])]);
    for (port, latch, number, cycles) in [
        (2, 0b0010, 22, 0),
        (3, 0b0010, 22, 0),
        (2, 0b1101, 0, 1),
        (3, 0b1101, 0, 1),
        (4, 0b0010, 0, 1),
    ] {
        start.dpl = port;
        start.ports = [0; 7];
        start.ports[usize::from(port) - 2] = latch;
        for runner in [Runner::Plain, Runner::Skipping] {
            let (answer, _) = go(runner, &rom, &[], &start, 1);
            assert_eq!((answer.number, answer.cycles), (number, cycles));
        }
    }
}

#[test]
fn calls_push_the_address_after_them_in_8_bits() {
    let czp = rom(&[(0x0FF, &[0xB5])]);
    let state = after(&czp, &[], &at(0x0FF), 1);
    assert_eq!((state.pc, state.stack[0]), (0x014, 0x000));
    let cal = rom(&[(0x2FE, &[0xA9, 0x80])]);
    let state = after(&cal, &[], &at(0x2FE), 1);
    assert_eq!((state.pc, state.stack[0]), (0x180, 0x200));
    // The second byte of a CAL at 2FF stands at 200.
    let cal = rom(&[(0x2FF, &[0xA9]), (0x200, &[0x80]), (0x300, &[0x11])]);
    let state = after(&cal, &[], &at(0x2FF), 1);
    assert_eq!((state.pc, state.stack[0]), (0x180, 0x201));
}

#[test]
fn jpa_at_the_end_of_a_page_stays_in_it() {
    let mut start = at(0x2FF);
    start.acc = 15;
    let state = after(&rom(&[(0x2FF, &[0x41])]), &[], &start, 1);
    assert_eq!((state.pc, state.owed), (0x2FC, 1));
}

#[test]
fn a_skip_over_1c_or_45_is_one_byte_and_no_stop() {
    let mut start = State::fresh();
    start.carry = 1;
    for code in [0x1C, 0x45] {
        let rom = rom(&[(0, &[0x04, code, 0x93])]);
        let state = after(&rom, &[], &start, 3);
        assert_eq!((state.pc, state.acc, state.owed), (3, 3, 0));
    }
}

#[test]
fn the_schedule_goes_by_the_cycle_number() {
    let mut start = State::fresh();
    start.cycle = 1_000;
    // IA at 1,000 and 1,002.
    let rom = rom(&[(0, &[0x40, 0x42, 0x40])]);
    let lines = schedule(&[
        (0, 0x10, 0, 1),
        (999, 0x20, 0, 1),
        (1_001, 0x30, 0, 1),
        (1_004, 0x40, 0, 1),
        (1_005, 0x50, 0, 1),
    ]);
    let state = after(&rom, &lines, &start, 6);
    assert_eq!((state.ram[80 + 10], state.acc), (2, 4));
    // A record at the present cycle counts already.
    start.cycle = 999;
    assert_eq!(after(&rom, &lines, &start, 1).acc, 2);
    start.cycle = 998;
    assert_eq!(after(&rom, &lines, &start, 1).acc, 1);
}

#[test]
fn jmp_above_the_rom_is_carried_out() {
    let rom = rom(&[(0, &[0xA7, 0xD0])]);
    let (answer, _) = go(Runner::Plain, &rom, &[], &State::fresh(), 5);
    assert_eq!((answer.number, answer.cycles, answer.begun), (22, 2, 1));
    assert_eq!(answer.state.pc, 0x7D0);
}

//! R-8, "The reset line".

use reference::{trace, Answer, Runner, State};

use crate::common::*;

const BOTH: [Runner; 2] = [Runner::Plain, Runner::Skipping];

/// RES high from a cycle on, so many cycles; INT stays high.
fn pulse(from: u64, cycles: u64) -> Vec<u8> {
    lines(&[(from, 0, 0, 1, 1), (from + cycles, 0, 0, 1, 0)])
}

/// Every field of a state at some value other than that of the fresh state.
fn busy() -> State {
    let mut state = State::fresh();
    state.pc = 0x123;
    state.stack = [0x456, 0x2AB, 0x0CD];
    state.acc = 9;
    state.carry = 1;
    state.saved = 1;
    state.dph = 4;
    state.dpl = 11;
    state.int = 1;
    state.inte = 1;
    state.tm = 1;
    state.level = 0;
    state.mark = LDI;
    state.owed = 2;
    state.register = 33;
    state.counter = 5;
    state.ports = [1, 2, 3, 4, 5, 6, 7];
    for (word, place) in state.ram.iter_mut().zip(1..) {
        *word = place % 16;
    }
    state.cycle = 700;
    state
}

/// What a reset leaves of a state: the lines' INT is high.
fn after_reset(state: &State, cycle: u64) -> State {
    State {
        level: 1,
        cycle,
        count: 4,
        stack: state.stack,
        acc: state.acc,
        carry: state.carry,
        saved: state.saved,
        dph: state.dph,
        dpl: state.dpl,
        ram: state.ram,
        ..State::fresh()
    }
}

#[test]
fn the_fourth_cycle_with_res_high_is_the_first_reset_cycle() {
    let rom = rom(&[]);
    for (n, count, pc) in [
        (1, 1, 1),
        (2, 2, 2),
        (3, 3, 3),
        (4, 4, 0),
        (5, 4, 0),
        (9, 4, 0),
    ] {
        for runner in BOTH {
            let held = reset_record(0, 0, 0, 1, 1);
            let (answer, log) = go(runner, &rom, &held, &State::fresh(), n);
            assert_eq!((answer.number, answer.cycles, answer.steps), (0, n, n));
            assert_eq!((answer.state.count, answer.state.pc), (count, pc));
            // A reset cycle is no instruction begun, and one record is all.
            assert_eq!(answer.begun, n.min(3));
            let due = if n < 4 { vec![] } else { written(3, 0, 0) };
            assert_eq!(log, due);
        }
    }
}

#[test]
fn res_is_low_before_any_record() {
    let (answer, log) = go(Runner::Plain, &rom(&[]), &pulse(10, 4), &State::fresh(), 10);
    assert_eq!((answer.state.count, answer.state.pc, log), (0, 10, vec![]));
    let (answer, log) = go(Runner::Plain, &rom(&[]), &pulse(10, 4), &State::fresh(), 14);
    assert_eq!((answer.state.pc, log), (0, written(13, 0, 0)));
}

#[test]
fn three_cycles_are_no_reset_and_low_makes_the_count_0() {
    let rom = rom(&[]);
    for (high, low) in [(1, 1), (2, 1), (3, 1), (3, 2)] {
        let mut records = Vec::new();
        for k in 0..12 {
            let from = k * (high + low);
            records.extend([(from, 0, 0, 1, 1), (from + high, 0, 0, 1, 0)]);
        }
        let schedule = lines(&records);
        for n in 0..20 {
            let (answer, log) = go(Runner::Plain, &rom, &schedule, &State::fresh(), n);
            let since = n % (high + low);
            let count = if since > high { 0 } else { since };
            assert_eq!(u64::from(answer.state.count), count);
            assert_eq!((u64::from(answer.state.pc), log), (n, vec![]));
        }
    }
}

#[test]
fn a_new_record_needs_res_low_in_between() {
    // High for six cycles, low for one, high for five.
    let schedule = lines(&[
        (0, 0, 0, 1, 1),
        (6, 0, 0, 1, 0),
        (7, 0, 0, 1, 1),
        (12, 0, 0, 1, 0),
    ]);
    let (answer, log) = go(Runner::Plain, &rom(&[]), &schedule, &State::fresh(), 20);
    assert_eq!(log, [written(3, 0, 0), written(10, 0, 0)].concat());
    assert_eq!((answer.state.count, answer.state.pc), (0, 8));
    // Records that change nothing of RES don't count afresh.
    let records: Vec<_> = (0..9).map(|cycle| (cycle, 7, 7, 1, 1)).collect();
    let (_, log) = go(
        Runner::Plain,
        &rom(&[]),
        &lines(&records),
        &State::fresh(),
        9,
    );
    assert_eq!(log, written(3, 0, 0));
}

#[test]
fn what_becomes_0_and_what_is_kept() {
    let start = State { count: 3, ..busy() };
    let held = reset_record(0, 0, 0, 1, 1);
    for runner in BOTH {
        let (answer, log) = go(runner, &rom(&[]), &held, &start, 1);
        assert_eq!((answer.begun, answer.steps, answer.cycles), (0, 1, 1));
        assert_eq!(answer.state, after_reset(&start, 701));
        assert_eq!(log, written(700, 0, 0));
        // A cycle that finds the count at 4 does the same, and appends nothing.
        let start = State { count: 4, ..busy() };
        let (answer, log) = go(runner, &rom(&[]), &held, &start, 1);
        assert_eq!(answer.state, after_reset(&start, 701));
        assert_eq!((answer.begun, log), (0, vec![]));
    }
}

/// One cycle in the document's words, of a machine without a count.
fn cycle_without_res(rom: &[u8], state: &State, ab_cd_int: (u8, u8, u8)) -> (Answer, Vec<u8>) {
    let (ab, cd, int) = ab_cd_int;
    let start = State {
        count: 0,
        ..state.clone()
    };
    go(Runner::Plain, rom, &record(0, ab, cd, int), &start, 1)
}

#[test]
fn every_cycle_is_as_defined() {
    let draw = &mut Draw::new(81);
    let mut resets = 0;
    for _ in 0..20_000 {
        let (rom, _, mut start) = any_panel(draw);
        start.count = draw.upto(4);
        let (ab, cd, int, res) = (draw.byte(), draw.byte(), draw.upto(1), draw.upto(1));
        let lines = reset_record(0, ab, cd, int, res);
        let (answer, log) = go(Runner::Plain, &rom, &lines, &start, 1);
        let count = if res == 0 { 0 } else { 4.min(start.count + 1) };
        if count == 4 {
            resets += 1;
            let mut due = after_reset(&start, start.cycle + 1);
            due.level = int;
            let appended = start.count == 3;
            let record = if appended {
                written(start.cycle, 0, 0)
            } else {
                vec![]
            };
            assert_eq!((answer.number, answer.cycles, answer.begun), (0, 1, 0));
            assert_eq!((answer.state, log), (due, record));
            continue;
        }
        let (mut due, due_log) = cycle_without_res(&rom, &start, (ab, cd, int));
        // A stop begins no cycle, so RES isn't counted either.
        due.state.count = if due.number == 0 { count } else { start.count };
        assert_eq!((answer, log), (due, due_log));
    }
    assert!(resets > 3_000, "{resets}");
}

#[test]
fn a_fall_in_a_reset_cycle_is_lost_for_good() {
    let mut start = State::fresh();
    start.inte = 1;
    // INT falls in the reset cycle and stays low; EI afterwards lets no interrupt through.
    let schedule = lines(&[(0, 0, 0, 1, 1), (3, 0, 0, 0, 1), (4, 0, 0, 0, 0)]);
    let rom = rom(&[(0, &[0x31])]);
    let state = after(&rom, &schedule, &start, 4);
    assert_eq!((state.int, state.inte, state.level), (0, 0, 0));
    let state = after(&rom, &schedule, &start, 30);
    assert_eq!(
        (state.pc, state.int, state.inte, state.level),
        (26, 0, 1, 0)
    );
    // A fall in the cycle before it is lost too, one in the cycle after it is kept.
    let early = lines(&[(0, 0, 0, 1, 1), (2, 0, 0, 0, 1), (4, 0, 0, 0, 0)]);
    assert_eq!(after(&rom, &early, &State::fresh(), 5).int, 0);
    let late = lines(&[(0, 0, 0, 1, 1), (4, 0, 0, 0, 0)]);
    assert_eq!(after(&rom, &late, &State::fresh(), 5).int, 1);
}

#[test]
fn a_level_is_taken_in_a_reset_cycle() {
    // Low before, high in the reset cycle, low again: a fall.
    let mut start = State::fresh();
    start.level = 0;
    start.count = 3;
    let schedule = lines(&[(0, 0, 0, 1, 1), (1, 0, 0, 0, 0)]);
    assert_eq!(after(&rom(&[]), &schedule, &start, 1).level, 1);
    let state = after(&rom(&[]), &schedule, &start, 2);
    assert_eq!((state.int, state.level), (1, 0));
}

#[test]
fn nothing_is_accepted_and_no_owed_cycle_is_paid_in_a_reset_cycle() {
    let mut start = State::fresh();
    (start.int, start.inte, start.count) = (1, 1, 3);
    let held = reset_record(0, 0, 0, 1, 1);
    let state = after(&rom(&[]), &held, &start, 1);
    assert_eq!((state.pc, state.stack), (0, [0; 3]));
    // An acceptance at the third cycle is an ordinary one.
    start.count = 2;
    let state = after(&rom(&[]), &held, &start, 1);
    assert_eq!((state.pc, state.count), (0x3C, 3));
    // RES low makes the count 0 in an acceptance cycle and in an owed one.
    for change in [|s: &mut State| s.owed = 0, |s: &mut State| s.owed = 3] {
        change(&mut start);
        assert_eq!(after(&rom(&[]), &[], &start, 1).count, 0);
    }
}

#[test]
fn the_timer_does_not_step_in_a_reset_cycle() {
    // One tick left.
    let mut start = State::fresh();
    (start.register, start.count) = (32, 3);
    let state = after(&rom(&[]), &reset_record(0, 0, 0, 1, 1), &start, 1);
    assert_eq!((state.tm, state.register, state.counter), (0, 0, 0));
    start.count = 2;
    let state = after(&rom(&[]), &reset_record(0, 0, 0, 1, 1), &start, 1);
    assert_eq!((state.tm, state.register, state.count), (1, 0, 3));
}

#[test]
fn a_reset_cycle_needs_no_rom_byte() {
    for (pc, bytes) in [(0x7CF, [0x1C]), (0x100, [0x45]), (0x100, [0x1C])] {
        let rom = rom(&[(usize::from(pc), &bytes)]);
        for pc in [pc, 0x7D0, 0x7FF] {
            let mut start = State::fresh();
            (start.pc, start.count) = (pc, 3);
            let held = reset_record(0, 0, 0, 1, 1);
            assert_eq!(after(&rom, &held, &start, 5).pc, 0);
            // Before the fourth cycle it is needed.
            start.count = 2;
            let (answer, _) = go(Runner::Plain, &rom, &held, &start, 5);
            assert!(matches!(answer.number, 22 | 23));
            assert_eq!(answer.state, start);
        }
    }
}

#[test]
fn stop_3_covers_the_record() {
    let mut start = busy();
    start.count = 3;
    let schedule = lines(&[(700, 0, 0, 1, 1)]);
    for runner in BOTH {
        for room in 0..8 {
            let mut log = vec![0xA5; room];
            let answer = run(runner, &rom(&[]), &schedule, &start, &mut log, 3);
            assert_eq!((answer.number, answer.cycles, answer.steps), (3, 0, 0));
            // Its count stays, and the level seen too.
            assert_eq!(answer.state, start);
            assert_eq!(log, vec![0xA5; room]);
        }
        // The run that goes on with a new log counts that cycle once.
        let mut log = [0xA5; 9];
        let answer = run(runner, &rom(&[]), &schedule, &start, &mut log, 3);
        assert_eq!((answer.number, answer.cycles, answer.written), (0, 3, 8));
        assert_eq!(log[..8], written(700, 0, 0));
        assert_eq!((log[8], answer.state.count), (0xA5, 4));
        // A cycle that finds 4 needs no room.
        let held = State {
            count: 4,
            ..start.clone()
        };
        let answer = run(runner, &rom(&[]), &schedule, &held, &mut [], 3);
        assert_eq!((answer.number, answer.cycles), (0, 3));
    }
}

#[test]
fn res_is_not_counted_at_a_stop() {
    // OE at every address; the log has room for none.
    let rom = vec![0x44; 2_000];
    let held = reset_record(0, 0, 0, 1, 1);
    for count in 0..=2 {
        let start = State {
            count,
            ..State::fresh()
        };
        let answer = run(Runner::Plain, &rom, &held, &start, &mut [0; 7], 9);
        assert_eq!((answer.number, answer.state), (3, start));
    }
    // With RES low neither: the count stands until the cycle is run.
    let start = State {
        count: 2,
        ..State::fresh()
    };
    let answer = run(Runner::Plain, &rom, &[], &start, &mut [], 9);
    assert_eq!((answer.number, answer.state), (3, start));
}

/// TTM at 012, JCP back to it, with 1,000 ticks left.
fn waiting() -> (Vec<u8>, State) {
    let mut state = State::fresh();
    state.pc = 0x012;
    state.register = 1;
    state.counter = 15;
    (rom(&[(0x012, &[0x05, 0xD2])]), state)
}

#[test]
fn the_timer_jump_needs_res_low_and_a_count_of_0() {
    let (rom, start) = waiting();
    let steps = |schedule: &[u8], start: &State, n: u64| {
        let (skipping, log) = go(Runner::Skipping, &rom, schedule, start, n);
        let (plain, plain_log) = go(Runner::Plain, &rom, schedule, start, n);
        assert_eq!((&skipping.state, log), (&plain.state, plain_log));
        skipping.steps
    };
    assert_eq!(steps(&[], &start, 100), 1);
    // A count left over when RES is low costs one single cycle; JCP then stands there for another.
    for count in 1..=4 {
        let start = State {
            count,
            ..start.clone()
        };
        assert_eq!(steps(&[], &start, 100), 3);
    }
    // RES high for one to three cycles: each is stepped, and one more for the count.
    for high in 1..=3 {
        let due = [1 + (1 + 1) + 1, 1 + (2 + 1) + 1 + 1, 1 + (3 + 1) + 1][high as usize - 1];
        assert_eq!(steps(&pulse(10, high), &start, 100), due, "{high}");
    }
    // Held: a step for each cycle.
    assert_eq!(steps(&reset_record(10, 0, 0, 1, 1), &start, 100), 91);
}

#[test]
fn a_schedule_that_ends_with_res_high_holds_the_panel_for_ever() {
    let rom = vec![0x1C; 2_000];
    let mut start = busy();
    start.count = 3;
    let held = reset_record(0, 0, 0, 1, 1);
    for runner in BOTH {
        let mut log = [0; 8];
        let answer = run(runner, &rom, &held, &start, &mut log, 100_000);
        assert_eq!(
            (answer.number, answer.cycles, answer.begun),
            (0, 100_000, 0)
        );
        assert_eq!((answer.steps, answer.clocks), (100_000, 400_000));
        assert_eq!(answer.state, after_reset(&start, 100_700));
    }
}

#[test]
fn a_load_string_starts_afresh_and_c_and_d_read_their_lines_after_a_reset() {
    // LI 5 where the mark is LI: passed over, and loaded once a reset has made the mark other.
    let mut start = State::fresh();
    (start.acc, start.mark) = (9, LI);
    let rom_li = rom(&[(0, &[0x95])]);
    assert_eq!(after(&rom_li, &[], &start, 1).acc, 9);
    start.count = 3;
    assert_eq!(after(&rom_li, &pulse(0, 1), &start, 2).acc, 5);
    // IP of C with a latch of F: the latch is 0 after a reset.
    let mut start = State::fresh();
    (start.dpl, start.ports) = (2, [15; 7]);
    start.ports[6] = 7;
    let rom_ip = rom(&[(0, &[0x32])]);
    let schedule = lines(&[(0, 0, 0x60, 1, 1), (1, 0, 0x60, 1, 0)]);
    assert_eq!(after(&rom_ip, &schedule, &start, 1).acc, 15);
    start.count = 3;
    assert_eq!(after(&rom_ip, &schedule, &start, 2).acc, 6);
}

#[test]
fn trace_letters_the_record_r() {
    // LI 3, OE, and NOPs; RES is high from cycle 4 on for five cycles.
    let rom = rom(&[(0, &[0x93, 0x44])]);
    let input = [&12_u32.to_be_bytes(), &rom[..], &pulse(4, 5)].concat();
    let expected = "\
cycle port value
1 E 3
7 R 0
10 E 3
end 12 8 0
";
    assert_eq!(trace(&input), expected);
}

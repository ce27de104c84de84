//! Request R-11, "The smaller relatives", sentence by sentence.

use reference::call::{call, convert, fresh};
use reference::sheets::{legal, wrong, HALF, LEAST, PAGE};
use reference::{restore, run, save, Answer, Runner, Sheet, State, Version};

use crate::common::{any_state, lines, record, Draw};

fn sheet(rom: u64, rows: u64, levels: u64) -> Sheet {
    Sheet { rom, rows, levels }
}

/// A ROM as long as the sheet says, with these bytes at these addresses.
fn rom(sheet: Sheet, parts: &[(usize, &[u8])]) -> Vec<u8> {
    let mut rom = vec![0; sheet.rom as usize];
    for &(address, bytes) in parts {
        rom[address..address + bytes.len()].copy_from_slice(bytes);
    }
    rom
}

/// A run with room for every record and no line changing.
fn go(runner: Runner, rom: &[u8], state: &State, n: u64, sheet: Sheet) -> Answer {
    run(
        runner,
        rom,
        &[],
        state,
        &mut vec![0; 16 * n as usize],
        n,
        sheet,
    )
}

/// The number and the cycles of a plain run from this state.
fn ends(rom: &[u8], state: &State, n: u64, sheet: Sheet) -> (u8, u64) {
    let answer = go(Runner::Plain, rom, state, n, sheet);
    (answer.number, answer.cycles)
}

/// A state that the sheet has all of.
fn any_fitted(draw: &mut Draw, sheet: Sheet) -> State {
    sheet.fitted(&any_state(draw))
}

/// "the old figures are one sheet": the limits are those of documents 01, and a fresh state and its image are legal under every one.
#[test]
fn the_fresh_state_is_legal_under_every_sheet() {
    assert_eq!(Sheet::UPD546, sheet(2_000, 31, 3));
    let mut image = vec![0; 82];
    assert_eq!(fresh(&mut image), 0);
    for sheet in legal() {
        assert_eq!(restore(&image, sheet), (0, State::fresh()));
        let mut again = vec![0; 82];
        assert_eq!(save(Version::Two, &State::fresh(), &mut again, sheet), 0);
        assert_eq!(again, image);
        let answer = go(Runner::Plain, &rom(sheet, &[]), &State::fresh(), 0, sheet);
        assert_eq!((answer.number, answer.state), (0, State::fresh()));
    }
}

/// "71, before all else": every call that takes a sheet, with everything else wrong too; nothing is written.
#[test]
fn a_sheet_outside_its_limits_is_71_first() {
    let bad = State {
        acc: 16,
        cycle: u64::MAX,
        ..State::fresh()
    };
    for sheet in legal().into_iter().flat_map(wrong) {
        for runner in [Runner::Plain, Runner::Skipping] {
            let answer = run(runner, &[0; 7], &[0; 7], &bad, &mut [], u64::MAX, sheet);
            assert_eq!((answer.number, answer.refused), (71, true));
            assert_eq!(answer.state, bad);
            let counts = (answer.cycles, answer.clocks, answer.begun, answer.steps);
            assert_eq!((counts, answer.written), ((0, 0, 0, 0), 0));
        }
        assert_eq!(save(Version::One, &bad, &mut [], sheet), 71);
        assert_eq!(restore(&[7; 5], sheet), (71, State::fresh()));
        assert_eq!(convert(&[7; 5], &mut [], 9, sheet), 71);
        let (mut image, mut log, mut report) = ([7; 5], [8; 9], [9; 40]);
        let number = call(&mut image, &[], &[0; 7], &mut log, 3, 0, &mut report, sheet);
        assert_eq!((number, image, log), (71, [7; 5], [8; 9]));
        assert_eq!((&report[..32], &report[32..]), (&[0; 32][..], &[9; 8][..]));
    }
}

/// "but R-3's report under 32 bytes".
#[test]
fn a_short_report_comes_before_71() {
    for length in 0..32 {
        let mut report = vec![9; length];
        let number = call(
            &mut [],
            &[],
            &[],
            &mut [],
            0,
            0,
            &mut report,
            sheet(0, 0, 0),
        );
        assert_eq!((number, report), (1, vec![9; length]));
    }
}

/// 71, 21, 12, 11, 13, 34, 2: each with all those behind it.
#[test]
fn the_rest_keeps_its_order() {
    let (good, short) = (rom(HALF, &[]), vec![0; 999]);
    let limit = State {
        cycle: (1 << 48) - 1,
        ..State::fresh()
    };
    let mut absent = limit.clone();
    absent.stack[2] = 1;
    let number = |rom: &[u8], schedule: &[u8], state: &State, sheet: Sheet| {
        run(Runner::Plain, rom, schedule, state, &mut [], 1, sheet).number
    };
    let int = record(0, 0, 0, 2);
    assert_eq!(number(&good, &[], &limit, HALF), 2);
    assert_eq!(number(&good, &[], &absent, HALF), 34);
    assert_eq!(number(&good, &int, &absent, HALF), 13);
    assert_eq!(number(&good, &[2; 15], &absent, HALF), 11);
    assert_eq!(number(&good, &[2; 40_961], &absent, HALF), 12);
    assert_eq!(number(&short, &[2; 40_961], &absent, HALF), 21);
    assert_eq!(number(&short, &[2; 40_961], &absent, sheet(999, 3, 0)), 71);
}

/// "7CF and 2,000 read as the sheet's last address and length": 21 for any other length, longer ones too.
#[test]
fn a_rom_has_the_sheets_length() {
    for sheet in legal() {
        let due = sheet.rom as usize;
        for length in [
            0,
            1,
            2,
            63,
            64,
            65,
            due - 1,
            due,
            due + 1,
            1_999,
            2_000,
            2_001,
        ] {
            let number = if length == due { 0 } else { 21 };
            assert_eq!(
                ends(&vec![0xC0; length], &State::fresh(), 3, sheet).0,
                number
            );
        }
    }
}

/// 22 for a byte behind the end: the first, the second, the skipped one.
#[test]
fn a_byte_above_the_last_address_is_22() {
    for sheet in legal() {
        let last = sheet.rom as usize - 1;
        let at = |pc: usize| State {
            pc: pc as u16,
            carry: 1,
            ..State::fresh()
        };
        // JCP to itself, or to the page's start, is there; the byte behind isn't.
        let back = 0xC0 | (last & 63) as u8;
        let there = rom(sheet, &[(last, &[back])]);
        assert_eq!(ends(&there, &at(last), 9, sheet), (0, 9));
        assert_eq!(ends(&there, &at(last + 1), 9, sheet), (22, 0));
        if last == 255 {
            // 0FF is followed by 000: LDI and TC find their bytes there.
            assert_eq!(
                ends(&rom(sheet, &[(last, &[0x15])]), &at(last), 2, sheet),
                (0, 2)
            );
            assert_eq!(
                ends(&rom(sheet, &[(last, &[0x04])]), &at(last), 2, sheet),
                (0, 2)
            );
            continue;
        }
        for code in [0x14, 0x15, 0x16, 0x17, 0x1E, 0xA0, 0xA8] {
            let ldi = rom(sheet, &[(last, &[code])]);
            assert_eq!(ends(&ldi, &at(last), 2, sheet), (22, 0), "{code:02X}");
        }
        // TC skips with C, and needs the byte; without it doesn't.
        let tc = rom(sheet, &[(last, &[0x04])]);
        assert_eq!(ends(&tc, &at(last), 2, sheet), (22, 0));
        let no_skip = State {
            carry: 0,
            ..at(last)
        };
        assert_eq!(ends(&tc, &no_skip, 1, sheet), (0, 1));
        assert_eq!(ends(&tc, &no_skip, 2, sheet), (22, 1));
    }
}

/// "only its first byte is read": of two bytes that are passed over the second may be behind the end.
#[test]
fn a_skip_reads_the_first_byte_alone() {
    let sheet = sheet(2, 0, 1);
    let state = State {
        carry: 1,
        ..State::fresh()
    };
    let answer = go(Runner::Plain, &[0x04, 0x17], &state, 3, sheet);
    assert_eq!((answer.number, answer.state.pc), (0, 3));
    assert_eq!(ends(&[0x04, 0x17], &state, 4, sheet), (22, 3));
}

/// RTS skips where it returns to: behind the end it isn't begun.
#[test]
fn rts_looks_at_the_sheets_end() {
    let returning = |to: u16| State {
        stack: [to, 0, 0],
        ..State::fresh()
    };
    let rom = rom(HALF, &[(0, &[0x49])]);
    assert_eq!(ends(&rom, &returning(999), 3, HALF), (0, 3));
    assert_eq!(ends(&rom, &returning(1_000), 3, HALF), (22, 0));
}

/// PC and the words of levels that exist keep their 11 bits; only the fetch looks at the end.
#[test]
fn a_pc_above_the_last_address_is_legal() {
    for sheet in legal() {
        let mut state = State {
            pc: 0x7FF,
            owed: 2,
            ..State::fresh()
        };
        state.stack[..sheet.levels as usize].fill(0x7FF);
        let mut image = vec![0; 82];
        assert_eq!(save(Version::Two, &state, &mut image, sheet), 0);
        assert_eq!(restore(&image, sheet), (0, state.clone()));
        // The cycles that are owed are done.
        assert_eq!(ends(&rom(sheet, &[]), &state, 5, sheet), (22, 2));
    }
}

/// "PC becomes 03C", which may be absent: the acceptance takes place, and the next cycle stops.
#[test]
fn an_acceptance_may_lead_behind_the_end() {
    for (rom_bytes, number) in [(1, 22), (59, 22), (60, 22), (61, 0), (64, 0)] {
        let sheet = sheet(rom_bytes, 0, 1);
        let state = State {
            int: 1,
            inte: 1,
            ..State::fresh()
        };
        let answer = go(Runner::Plain, &rom(sheet, &[]), &state, 1, sheet);
        assert_eq!((answer.number, answer.state.pc), (0, 0x3C));
        assert_eq!(answer.state.stack, [0, 0, 0]);
        assert_eq!(ends(&rom(sheet, &[]), &state, 2, sheet).0, number);
    }
}

/// CZP calls 4 times k, wherever that is.
#[test]
fn czp_may_lead_behind_the_end() {
    let sheet = sheet(32, 0, 1);
    for k in 0..16 {
        let answer = go(
            Runner::Plain,
            &rom(sheet, &[(0, &[0xB0 | k])]),
            &State::fresh(),
            1,
            sheet,
        );
        assert_eq!((answer.number, answer.state.pc), (0, 4 * u16::from(k)));
        assert_eq!(answer.state.stack, [1, 0, 0]);
        let number = if k < 8 { 0 } else { 22 };
        assert_eq!(
            ends(&rom(sheet, &[(0, &[0xB0 | k])]), &State::fresh(), 2, sheet).0,
            number
        );
    }
}

/// "Only the low 8 bits count up", whatever the ROM's length.
#[test]
fn the_low_8_bits_count_up_in_every_rom() {
    let sheet = sheet(256, 0, 1);
    let state = State {
        pc: 0xFF,
        ..State::fresh()
    };
    let answer = go(Runner::Plain, &rom(sheet, &[]), &state, 1, sheet);
    assert_eq!((answer.number, answer.state.pc), (0, 0));
}

/// With L levels a push loses the L-th.
#[test]
fn a_push_loses_the_last_level() {
    // CAL 008 from 004.
    for (levels, stack) in [
        (3, [0x006, 0x111, 0x222]),
        (2, [0x006, 0x111, 0]),
        (1, [0x006, 0, 0]),
    ] {
        let sheet = sheet(64, 0, levels);
        let full = sheet.fitted(&State {
            pc: 4,
            stack: [0x111, 0x222, 0x333],
            ..State::fresh()
        });
        let called = go(
            Runner::Plain,
            &rom(sheet, &[(4, &[0xA8, 8])]),
            &full,
            1,
            sheet,
        );
        assert_eq!((called.number, called.state.stack), (0, stack));
        // Acceptance pushes by the same rule.
        let accepting = State {
            pc: 6,
            int: 1,
            inte: 1,
            ..full
        };
        let accepted = go(Runner::Plain, &rom(sheet, &[]), &accepting, 1, sheet);
        assert_eq!((accepted.number, accepted.state.stack), (0, stack));
    }
}

/// "a pop shifts up and the lowest", that exists, "keeps its value".
#[test]
fn a_pop_keeps_the_last_level() {
    for (levels, stack) in [
        (3, [0x011, 0x012, 0x012]),
        (2, [0x011, 0x011, 0]),
        (1, [0x010, 0, 0]),
    ] {
        for code in [0x48, 0x49] {
            let sheet = sheet(64, 0, levels);
            let full = sheet.fitted(&State {
                stack: [0x010, 0x011, 0x012],
                ..State::fresh()
            });
            let answer = go(Runner::Plain, &rom(sheet, &[(0, &[code])]), &full, 1, sheet);
            assert_eq!((answer.number, answer.state.stack), (0, stack));
            assert_eq!(answer.state.pc, if code == 0x48 { 0x010 } else { 0x011 });
        }
    }
}

/// A fourth, third and second call is lost: so many returns come back, then the lowest again and again.
#[test]
fn one_call_more_than_there_are_levels_is_lost() {
    for levels in 1..=3 {
        let sheet = sheet(1_000, 0, levels);
        // CAL at 000, 100, 200 and 300; RT behind each and at 380. Where the calls return to: 302, 202, 102, 002.
        let rom = rom(
            sheet,
            &[
                (0x000, &[0xA9, 0x00, 0x48]),
                (0x100, &[0xAA, 0x00, 0x48]),
                (0x200, &[0xAB, 0x00, 0x48]),
                (0x300, &[0xAB, 0x80, 0x48]),
                (0x380, &[0x48]),
            ],
        );
        let mut state = State::fresh();
        let mut returns = Vec::new();
        for cycle in 1..=20 {
            state = go(Runner::Plain, &rom, &state, 1, sheet).state;
            if cycle > 8 && state.owed == 1 {
                returns.push(state.pc);
            }
        }
        let due: &[u16] = match levels {
            1 => &[0x302, 0x302, 0x302],
            2 => &[0x302, 0x202, 0x202],
            _ => &[0x302, 0x202, 0x102],
        };
        assert_eq!(returns[..3], *due);
        assert_eq!(returns[3..], [due[2]; 3]);
    }
}

/// "absent rows behave like 5 and 6": they read 0 and lose writes, and "a skip looks at the computed value".
#[test]
fn absent_rows_read_0_and_lose_writes() {
    for rows in 0..32 {
        let sheet = sheet(64, rows, 1);
        for row in 0..8 {
            let there = row == 7 || row < 5 && rows >> row & 1 == 1;
            let state = State {
                acc: 9,
                dph: row,
                dpl: 3,
                ..State::fresh()
            };
            let after = |code: u8| {
                go(
                    Runner::Plain,
                    &rom(sheet, &[(0, &[code])]),
                    &state,
                    1,
                    sheet,
                )
            };
            // S, and LM after it.
            let stored = after(0x02).state;
            assert_eq!(stored.ram.iter().sum::<u8>(), if there { 9 } else { 0 });
            let loaded = go(
                Runner::Plain,
                &rom(sheet, &[(1, &[0x38])]),
                &stored,
                1,
                sheet,
            );
            assert_eq!(loaded.state.acc, if there { 9 } else { 0 });
            // INM makes 1 of 0, without a skip; DEM makes 15, with one.
            let (inm, dem) = (after(0x1D).state, after(0x1F).state);
            assert_eq!((inm.pc, dem.pc), (1, 2));
            assert_eq!(inm.ram.iter().sum::<u8>(), u8::from(there));
            assert_eq!(dem.ram.iter().sum::<u8>(), if there { 15 } else { 0 });
        }
    }
}

/// Row 7 is always there: the flag word, and Z to X.
#[test]
fn row_7_is_always_there() {
    let state = State {
        acc: 6,
        dpl: 11,
        dph: 3,
        ..State::fresh()
    };
    // TAZ, TAW, TLY, THX, SFB 2.
    let code = [0x42, 0x43, 0x46, 0x47, 0x7E];
    let sheet = sheet(64, 0, 1);
    let answer = go(Runner::Plain, &rom(sheet, &[(0, &code)]), &state, 10, sheet);
    assert_eq!(answer.number, 0);
    assert_eq!(answer.state.ram[0x59..], [4, 6, 6, 0, 0, 11, 3]);
}

/// "An image, and a state given as a value, holds zeros for what is absent, else 34": in a restore, a save, a run, a call and a
/// conversion.
#[test]
fn what_is_absent_is_34() {
    let is_34 = |state: &State, sheet: Sheet, number: u8| {
        let mut image = [0; 82];
        assert_eq!(save(Version::Two, state, &mut image, Sheet::UPD546), 0);
        let given = image;
        assert_eq!(restore(&image, sheet).0, number);
        assert_eq!(save(Version::Two, state, &mut [0; 82], sheet), number);
        assert_eq!(save(Version::One, state, &mut [0; 81], sheet), number);
        assert_eq!(convert(&image, &mut [0; 81], 1, sheet), number);
        assert_eq!(convert(&image, &mut [0; 82], 2, sheet), number);
        let rom = rom(sheet, &[]);
        let ran = go(Runner::Skipping, &rom, state, 0, sheet);
        assert_eq!((ran.number, &ran.state), (number, state));
        let mut report = [9; 32];
        let called = call(&mut image, &rom, &[], &mut [], 0, 0, &mut report, sheet);
        assert_eq!((called, image, report), (number, given, [0; 32]));
    };
    for sheet in [
        HALF,
        PAGE,
        LEAST,
        sheet(5, 31, 3),
        sheet(5, 0, 3),
        sheet(5, 31, 1),
    ] {
        is_34(&State::fresh(), sheet, 0);
        for (place, row) in [0, 1, 2, 3, 4, 7].into_iter().enumerate() {
            let there = row == 7 || sheet.rows >> row & 1 == 1;
            for column in [0, 7, 15] {
                let mut state = State::fresh();
                state.ram[16 * place + column] = 8;
                is_34(&state, sheet, if there { 0 } else { 34 });
            }
        }
        for level in 0..3 {
            for word in [1, 0x100, 0x7FF] {
                let mut state = State::fresh();
                state.stack[level] = word;
                let there = level < sheet.levels as usize;
                is_34(&state, sheet, if there { 0 } else { 34 });
            }
        }
    }
}

/// The layout is the same under every sheet, and nothing in it tells the sheet: an image goes from a smaller chip to a larger one,
/// and back where nothing is lost.
#[test]
fn an_image_of_one_sheet_under_another() {
    let mut draw = Draw::new(71);
    let mut refused = 0;
    for _ in 0..2_000 {
        let (one, other) = (draw.sheet(), draw.sheet());
        let state = any_fitted(&mut draw, one);
        let mut image = [0; 82];
        assert_eq!(save(Version::Two, &state, &mut image, one), 0);
        assert_eq!(restore(&image, one), (0, state.clone()));
        assert_eq!(restore(&image, Sheet::UPD546), (0, state.clone()));
        let fits = other.fitted(&state) == state;
        let due = if fits {
            (0, state)
        } else {
            (34, State::fresh())
        };
        assert_eq!(restore(&image, other), due);
        refused += u64::from(!fits);
    }
    assert!(refused > 500 && refused < 1_900, "{refused}");
}

/// A run keeps what is absent zero, both runners do the same, and slices end as one run does: for drawn sheets, ROMs and states.
#[test]
fn slices_under_any_sheet_end_as_one_run() {
    let mut draw = Draw::new(1_111);
    let mut ended = [0; 256];
    for _ in 0..3_000 {
        let sheet = draw.sheet();
        let mut state = any_fitted(&mut draw, sheet);
        state.pc %= sheet.rom as u16;
        state.cycle = draw.below(1 << 20);
        let rom: Vec<u8> = (0..sheet.rom).map(|_| draw.byte()).collect();
        let schedule = lines(&draw.resets(state.cycle));
        let n = draw.below(60);
        let slice = |runner, state: &State, n: u64| {
            let mut log = vec![0; 16 * n as usize];
            let answer = run(runner, &rom, &schedule, state, &mut log, n, sheet);
            assert!(!answer.refused);
            assert_eq!(sheet.fitted(&answer.state), answer.state);
            log.truncate(answer.written);
            (answer, log)
        };
        let (whole, log) = slice(Runner::Plain, &state, n);
        let (skipped, same) = slice(Runner::Skipping, &state, n);
        assert_eq!(
            (&skipped.state, skipped.number),
            (&whole.state, whole.number)
        );
        assert_eq!((same, skipped.begun), (log.clone(), whole.begun));
        let cut = draw.below(n + 1);
        let (first, mut joined) = slice(Runner::Skipping, &state, cut);
        let mut image = [0; 82];
        assert_eq!(save(Version::Two, &first.state, &mut image, sheet), 0);
        let (number, again) = restore(&image, sheet);
        assert_eq!((number, &again), (0, &first.state));
        let (second, rest) = slice(Runner::Plain, &again, n - cut);
        joined.extend(rest);
        assert_eq!((second.state, joined), (whole.state, log));
        assert_eq!(first.begun + second.begun, whole.begun);
        ended[usize::from(whole.number)] += 1;
    }
    assert!(ended[0] > 500 && ended[22] > 500 && ended[23] > 50);
}

/// The jump's JCP has to lie below the end: TTM at the last address steps, and 22 follows; with the JCP behind it, it jumps.
#[test]
fn the_jump_looks_at_the_sheets_end() {
    let waiting = |pc: u16| State {
        pc,
        register: 1,
        counter: 1,
        ..State::fresh()
    };
    for rom_bytes in [2, 64, 1_000, 1_999] {
        let sheet = sheet(rom_bytes, 0, 1);
        let at = rom_bytes as usize - 2;
        let back = 0xC0 | (at & 63) as u8;
        let wait = rom(sheet, &[(at, &[0x05, back])]);
        let answer = go(Runner::Skipping, &wait, &waiting(at as u16), 126, sheet);
        assert_eq!((answer.number, answer.cycles, answer.steps), (0, 126, 1));
        let alone = rom(sheet, &[(at + 1, &[0x05])]);
        let answer = go(
            Runner::Skipping,
            &alone,
            &waiting(at as u16 + 1),
            126,
            sheet,
        );
        assert_eq!((answer.number, answer.cycles, answer.steps), (22, 1, 1));
    }
}

/// A reset keeps the stack and the rows, under every sheet.
#[test]
fn a_reset_keeps_what_a_smaller_chip_has() {
    for sheet in legal() {
        let mut draw = Draw::new(sheet.rom);
        let state = State {
            count: 3,
            cycle: 5,
            ..any_fitted(&mut draw, sheet)
        };
        let schedule = lines(&[(0, 0, 0, 1, 1)]);
        let (rom, mut log) = (rom(sheet, &[]), [0; 16]);
        let answer = run(Runner::Plain, &rom, &schedule, &state, &mut log, 1, sheet);
        assert_eq!((answer.number, answer.written), (0, 8));
        assert_eq!((answer.state.pc, answer.state.count), (0, 4));
        assert_eq!(
            (answer.state.stack, answer.state.ram),
            (state.stack, state.ram)
        );
    }
}

/// Version 1 goes forward and back under every sheet.
#[test]
fn an_image_is_converted_under_every_sheet() {
    let mut draw = Draw::new(5);
    for sheet in legal() {
        for _ in 0..50 {
            let state = State {
                count: 0,
                ..any_fitted(&mut draw, sheet)
            };
            let (mut one, mut two, mut back) = ([0; 81], [0; 82], [0; 81]);
            assert_eq!(save(Version::One, &state, &mut one, sheet), 0);
            assert_eq!(convert(&one, &mut two, 2, sheet), 0);
            assert_eq!(convert(&two, &mut back, 1, sheet), 0);
            assert_eq!(one, back);
            assert_eq!(restore(&two, sheet), (0, state));
        }
    }
}

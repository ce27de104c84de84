//! Each instruction in its first cycle, on every operand and value that matters: the whole state
//! and the log are compared.

use reference::{Runner, State};

use crate::common::*;

/// Where the instruction under test stands.
const AT: u16 = 0x145;

/// Words of the RAM array.
const FLAG: usize = 80 + 9;
const Z: usize = 80 + 10;
const W: usize = 80 + 11;
const S: usize = 80 + 12;
const R: usize = 80 + 13;
const Y: usize = 80 + 14;
const X: usize = 80 + 15;

/// Lines A to D while the instruction is carried out.
const LINES: [u8; 4] = [0b1010, 0b0110, 0b0001, 0b1101];

/// Any state about to begin the instruction: nothing owed, no interrupt, the timer stopped.
fn start(draw: &mut Draw) -> State {
    let mut state = any_state(draw);
    state.pc = AT;
    state.count = 0;
    state.owed = 0;
    state.mark = OTHER;
    state.inte = 0;
    state.level = 1;
    state.register = 0;
    state.counter = 0;
    state
}

/// Carries out the instruction, NOPs standing behind it. Its base cycles and the change it makes
/// are given; PC is already behind it, and the mark is other.
fn check(before: &State, code: &[u8], cycles: u8, change: impl FnOnce(&mut State)) {
    check_log(before, code, cycles, &[], change);
}

/// The same for an instruction that writes ports.
fn check_log(
    before: &State,
    code: &[u8],
    cycles: u8,
    writes: &[(u8, u8)],
    change: impl FnOnce(&mut State),
) {
    let rom = rom(&[(usize::from(AT), code)]);
    let ab = LINES[0] << 4 | LINES[1];
    let cd = LINES[2] << 4 | LINES[3];
    let lines = schedule(&[(before.cycle, ab, cd, 1), (before.cycle + 1, 0, 0, 1)]);
    let (answer, log) = go(Runner::Plain, &rom, &lines, before, 1);

    let mut expected = before.clone();
    expected.pc += code.len() as u16;
    expected.owed = cycles - 1;
    expected.cycle += 1;
    change(&mut expected);
    assert_eq!(answer.state, expected, "code {code:02X?}");
    assert_eq!((answer.number, answer.cycles, answer.begun), (0, 1, 1));

    let expected: Vec<u8> = writes
        .iter()
        .flat_map(|&(port, value)| written(before.cycle, port, value))
        .collect();
    assert_eq!(log, expected, "code {code:02X?}");
}

/// Passes over a NOP.
fn skip_if(state: &mut State, condition: bool) {
    if condition {
        state.pc += 1;
        state.owed += 1;
    }
}

/// DP's word in the RAM array, if it exists.
fn word(state: &State) -> Option<usize> {
    let column = usize::from(state.dpl);
    match state.dph {
        0..=4 => Some(usize::from(state.dph) * 16 + column),
        7 => Some(80 + column),
        _ => None,
    }
}

fn m(state: &State) -> u8 {
    word(state).map_or(0, |at| state.ram[at])
}

fn set_m(state: &mut State, value: u8) {
    if let Some(at) = word(state) {
        state.ram[at] = value;
    }
}

/// Any states with every Acc, M, C and row among them.
fn each_sum(mut test: impl FnMut(&State)) {
    let draw = &mut Draw::new(1);
    for acc in 0..16 {
        for value in 0..16 {
            for carry in 0..2 {
                let mut state = start(draw);
                state.acc = acc;
                state.carry = carry;
                set_m(&mut state, value);
                test(&state);
            }
        }
    }
}

/// Any states with every DP among them, three times over.
fn each_dp(mut test: impl FnMut(&State)) {
    let draw = &mut Draw::new(2);
    for dp in 0..3 * 128 {
        let mut state = start(draw);
        state.dph = (dp / 16 % 8) as u8;
        state.dpl = (dp % 16) as u8;
        test(&state);
    }
}

#[test]
fn the_simplest() {
    each_sum(|s| {
        check(s, &[0x00], 1, |_| {});
        check(s, &[0x01], 1, |t| t.inte = 0);
        check(s, &[0x04], 1, |t| skip_if(t, s.carry == 1));
        check(s, &[0x05], 1, |t| skip_if(t, s.tm == 1));
        check(s, &[0x07], 1, |t| t.dpl = s.acc);
        check(s, &[0x0B], 1, |t| t.carry = 0);
        check(s, &[0x12], 1, |t| t.acc = s.dpl);
        check(s, &[0x1B], 1, |t| t.carry = 1);
        check(s, &[0x1A], 1, |t| {
            t.carry = s.saved;
            t.saved = s.carry;
        });
        check(s, &[0x31], 1, |t| {
            t.inte = 1;
            t.mark = EI;
        });
        check(s, &[0x03], 1, |t| {
            t.int = 0;
            skip_if(t, s.int == 1);
        });
    });
}

#[test]
fn di_with_inte_set() {
    let mut state = start(&mut Draw::new(3));
    state.inte = 1;
    state.int = 0;
    check(&state, &[0x01], 1, |t| t.inte = 0);
    check(&state, &[0x31], 1, |t| t.mark = EI);
}

#[test]
fn sums_on_acc() {
    each_sum(|s| {
        let wide = u32::from(s.acc) + u32::from(m(s));
        check(s, &[0x08], 1, |t| {
            t.acc = (wide % 16) as u8;
            skip_if(t, wide >= 16);
        });
        let wide = wide + u32::from(s.carry);
        check(s, &[0x09], 1, |t| {
            t.acc = (wide % 16) as u8;
            t.carry = u8::from(wide >= 16);
            skip_if(t, wide >= 16);
        });
        check(s, &[0x19], 1, |t| {
            t.acc = (wide % 16) as u8;
            t.carry = u8::from(wide >= 16);
        });
        check(s, &[0x06], 1, |t| t.acc = (s.acc + 6) % 16);
        check(s, &[0x0A], 1, |t| t.acc = (s.acc + 10) % 16);
        check(s, &[0x10], 1, |t| t.acc = 15 - s.acc);
        check(s, &[0x11], 1, |t| t.acc = (16 - s.acc) % 16);
        check(s, &[0x18], 1, |t| t.acc = s.acc ^ m(s));
        check(s, &[0x0C], 1, |t| skip_if(t, s.acc == m(s)));
        check(s, &[0x0D], 1, |t| {
            t.acc = (s.acc + 1) % 16;
            skip_if(t, s.acc == 15);
        });
        check(s, &[0x0F], 1, |t| {
            t.acc = (s.acc + 15) % 16;
            skip_if(t, s.acc == 0);
        });
        check(s, &[0x30], 1, |t| {
            t.acc = s.acc / 2 + 8 * s.carry;
            t.carry = s.acc % 2;
        });
    });
}

#[test]
fn words_of_ram() {
    each_sum(|s| {
        check(s, &[0x02], 1, |t| set_m(t, s.acc));
        check(s, &[0x1D], 1, |t| {
            set_m(t, (m(s) + 1) % 16);
            skip_if(t, m(s) == 15);
        });
        check(s, &[0x1F], 1, |t| {
            set_m(t, (m(s) + 15) % 16);
            skip_if(t, m(s) == 0);
        });
    });
    each_dp(|s| {
        for x in 0..4 {
            check(s, &[0x28 + x], 1, |t| {
                t.acc = m(s);
                set_m(t, s.acc);
                t.dph = s.dph ^ x;
            });
            check(s, &[0x2C + x], 1, |t| {
                t.acc = m(s);
                set_m(t, s.acc);
                t.dph = s.dph ^ x;
                t.dpl = (s.dpl + 15) % 16;
                skip_if(t, s.dpl == 0);
            });
            check(s, &[0x3C + x], 1, |t| {
                t.acc = m(s);
                set_m(t, s.acc);
                t.dph = s.dph ^ x;
                t.dpl = (s.dpl + 1) % 16;
                skip_if(t, s.dpl == 15);
            });
            check(s, &[0x38 + x], 1, |t| {
                t.acc = m(s);
                t.dph = s.dph ^ x;
            });
        }
        check(s, &[0x13], 1, |t| {
            t.dpl = (s.dpl + 15) % 16;
            skip_if(t, s.dpl == 0);
        });
        check(s, &[0x33], 1, |t| {
            t.dpl = (s.dpl + 1) % 16;
            skip_if(t, s.dpl == 15);
        });
    });
}

#[test]
fn bits_of_acc_and_ram() {
    each_sum(|s| {
        for b in 0..4 {
            let bit = |value: u8| value & (1 << b) != 0;
            check(s, &[0x24 + b], 1, |t| skip_if(t, bit(s.acc)));
            check(s, &[0x34 + b], 1, |t| skip_if(t, bit(s.acc) == bit(m(s))));
            check(s, &[0x58 + b], 1, |t| skip_if(t, bit(m(s))));
            check(s, &[0x68 + b], 1, |t| set_m(t, m(s) & (15 - (1 << b))));
            check(s, &[0x78 + b], 1, |t| set_m(t, m(s) | 1 << b));
            check(s, &[0x20 + b], 2, |t| skip_if(t, !bit(s.ram[FLAG])));
            check(s, &[0x5C + b], 2, |t| skip_if(t, bit(s.ram[FLAG])));
            check(s, &[0x6C + b], 2, |t| t.ram[FLAG] &= 15 - (1 << b));
            check(s, &[0x7C + b], 2, |t| t.ram[FLAG] |= 1 << b);
        }
    });
}

#[test]
fn words_with_names() {
    each_dp(|s| {
        check(s, &[0x42], 2, |t| t.ram[Z] = s.acc);
        check(s, &[0x43], 2, |t| t.ram[W] = s.acc);
        check(s, &[0x46], 2, |t| t.ram[Y] = s.dpl);
        check(s, &[0x47], 2, |t| t.ram[X] = s.dph);
        for (code, at) in [(0x4A, Z), (0x4B, W)] {
            check(s, &[code], 2, |t| {
                t.acc = s.ram[at];
                t.ram[at] = s.acc;
            });
        }
        for (code, at) in [(0x4C, S), (0x4E, Y)] {
            check(s, &[code], 2, |t| {
                t.dpl = s.ram[at];
                t.ram[at] = s.dpl;
            });
        }
        for (code, at) in [(0x4D, R), (0x4F, X)] {
            check(s, &[code], 2, |t| {
                t.dph = s.ram[at] % 8;
                t.ram[at] = s.dph;
            });
        }
    });
}

#[test]
fn operands_of_4_bits() {
    each_sum(|s| {
        for k in 0..16 {
            check(s, &[0x80 + k], 1, |t| {
                t.dph = 0;
                t.dpl = k;
            });
            check(s, &[0x90 + k], 1, |t| (t.acc, t.mark) = (k, LI));
            // The second byte's high half isn't looked at.
            let second = k | s.acc << 4;
            check(s, &[0x16, second], 2, |t| skip_if(t, s.dpl == k));
            check(s, &[0x17, second], 2, |t| skip_if(t, s.acc == k));
        }
    });
}

#[test]
fn jumps_and_calls() {
    each_sum(|s| {
        for k in 0..16 {
            check(s, &[0xB0 + k], 1, |t| {
                t.pc = 4 * u16::from(k);
                t.stack = [AT + 1, s.stack[0], s.stack[1]];
            });
        }
        for low in 0..64 {
            check(s, &[0xC0 + low], 1, |t| t.pc = 0x140 + u16::from(low));
        }
        check(s, &[0x41], 2, |t| t.pc = 0x140 + 4 * u16::from(s.acc));
        check(s, &[0x48], 2, |t| {
            t.pc = s.stack[0];
            t.stack = [s.stack[1], s.stack[2], s.stack[2]];
        });
    });
    let draw = &mut Draw::new(4);
    for field in 0..8 {
        for _ in 0..40 {
            let (s, low) = (&start(draw), draw.upto(255));
            let target = 0x100 * u16::from(field) + u16::from(low);
            check(s, &[0xA0 + field, low], 2, |t| t.pc = target);
            check(s, &[0xA8 + field, low], 2, |t| {
                t.pc = target;
                t.stack = [AT + 2, s.stack[0], s.stack[1]];
            });
        }
    }
}

#[test]
fn rts_skips_at_the_popped_address() {
    let draw = &mut Draw::new(5);
    for back in 0..=0x7CE {
        let s = &mut start(draw);
        s.stack[0] = back;
        // NOPs stand everywhere but at the RTS itself, which is one byte too.
        check(s, &[0x49], 2, |t| {
            t.pc = back & 0x700 | (back + 1) & 0x0FF;
            t.owed += 1;
            t.stack = [s.stack[1], s.stack[2], s.stack[2]];
        });
    }
    // Over a CI it costs two further cycles.
    let mut state = start(draw);
    state.stack[0] = 0x6FF;
    let rom = rom(&[(usize::from(AT), &[0x49]), (0x6FF, &[0x17])]);
    let state = after(&rom, &[], &state, 1);
    assert_eq!((state.pc, state.owed), (0x601, 3));
}

#[test]
fn stm_and_ldi() {
    let draw = &mut Draw::new(6);
    for second in 0..=255 {
        let s = &mut start(draw);
        check(s, &[0x14, second], 2, |t| {
            t.tm = 0;
            t.register = 1;
            t.counter = second % 64;
            t.mark = STM;
        });
        for mark in [OTHER, EI, STM, LI] {
            s.mark = mark;
            check(s, &[0x15, second], 2, |t| {
                t.dph = second / 16 % 8;
                t.dpl = second % 16;
                t.mark = LDI;
            });
            check(s, &[0x00], 1, |t| t.mark = OTHER);
        }
        s.mark = LDI;
        check(s, &[0x15, second], 2, |_| {});
        check(s, &[0x00], 1, |t| t.mark = OTHER);
    }
}

#[test]
fn li_after_every_mark() {
    let draw = &mut Draw::new(16);
    for k in 0..16 {
        let s = &mut start(draw);
        for mark in [OTHER, LDI, EI, STM] {
            s.mark = mark;
            check(s, &[0x90 + k], 1, |t| (t.acc, t.mark) = (k, LI));
        }
        s.mark = LI;
        check(s, &[0x90 + k], 1, |_| {});
        check(s, &[0x00], 1, |t| t.mark = OTHER);
    }
}

#[test]
fn lines() {
    each_dp(|s| {
        // The latches of any state are set.
        let read = match s.dpl {
            port @ 0..=1 => LINES[usize::from(port)],
            port @ 2..=3 => LINES[usize::from(port)] | s.ports[usize::from(port) - 2],
            _ => 0,
        };
        check(s, &[0x32], 1, |t| t.acc = read);
        check(s, &[0x40], 2, |t| t.acc = LINES[0]);
        for b in 0..4 {
            check(s, &[0x50 + b], 1, |t| skip_if(t, read >> b & 1 == 1));
            check(s, &[0x54 + b], 2, |t| skip_if(t, LINES[0] >> b & 1 == 1));
        }
    });
}

#[test]
fn ports() {
    each_dp(|s| {
        // OP writes C to I.
        match s.dpl {
            port @ 2..=8 => {
                let value = if port == 8 { s.acc % 8 } else { s.acc };
                check_log(s, &[0x0E], 1, &[(port, value)], |t| {
                    t.ports[usize::from(port) - 2] = value
                });
            }
            _ => check(s, &[0x0E], 1, |_| {}),
        }
        for b in 0..4 {
            // SPB and RPB write E to I, but not bit 3 of I.
            match s.dpl {
                port @ 4..=8 if (port, b) != (8, 3) => {
                    let at = usize::from(port) - 2;
                    let (low, high) = (s.ports[at] & (15 - (1 << b)), s.ports[at] | 1 << b);
                    check_log(s, &[0x60 + b], 1, &[(port, low)], |t| t.ports[at] = low);
                    check_log(s, &[0x70 + b], 1, &[(port, high)], |t| t.ports[at] = high);
                }
                _ => {
                    check(s, &[0x60 + b], 1, |_| {});
                    check(s, &[0x70 + b], 1, |_| {});
                }
            }
            let (low, high) = (s.ports[2] & (15 - (1 << b)), s.ports[2] | 1 << b);
            check_log(s, &[0x64 + b], 2, &[(4, low)], |t| t.ports[2] = low);
            check_log(s, &[0x74 + b], 2, &[(4, high)], |t| t.ports[2] = high);
        }
        check_log(s, &[0x44], 2, &[(4, s.acc)], |t| t.ports[2] = s.acc);
        let (c, d) = (s.acc, s.dpl);
        check_log(s, &[0x1E, d << 4 | c], 2, &[(2, c), (3, d)], |t| {
            t.ports[0] = c;
            t.ports[1] = d;
        });
    });
}

#[test]
fn a_skip_passes_over_the_bytes_of_each_code() {
    let mut state = start(&mut Draw::new(7));
    state.carry = 1;
    for code in 0..=255 {
        let two = matches!(code, 0x14..=0x17 | 0x1E | 0xA0..=0xAF);
        let bytes = if two { 2 } else { 1 };
        let rom = rom(&[(usize::from(AT), &[0x04, code])]);
        let state = after(&rom, &[], &state, 1);
        assert_eq!(state.pc, AT + 1 + bytes);
        assert_eq!(u16::from(state.owed), bytes);
    }
}

#[test]
fn owed_cycles_do_nothing_but_pass() {
    let draw = &mut Draw::new(8);
    let rom = any_rom(draw);
    for _ in 0..200 {
        let mut state = start(draw);
        state.pc = draw.below(0x800) as u16;
        state.owed = 1 + draw.upto(2);
        state.mark = draw.upto(4);
        let mut expected = state.clone();
        expected.owed -= 1;
        expected.cycle += 1;
        let (answer, log) = go(Runner::Plain, &rom, &[], &state, 1);
        assert_eq!((answer.state, answer.begun), (expected, 0));
        assert!(log.is_empty());
    }
}

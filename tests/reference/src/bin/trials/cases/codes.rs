//! Every code, with several operands, registers, RAM words and lines: short runs that begin with it,
//! without and with a skip, and longer ones that show each result in the log.

use reference::case::{Case, INSIDE, NO_STOPS};
use reference::codes::{always_skips, can_skip, is_none};
use reference::draw::Draw;
use reference::{Coverage, State};

/// Codes of the programs.
const DI: u8 = 0x01;
const LDI: u8 = 0x15;
const LI: u8 = 0x90;
const S: u8 = 0x02;
const STC: u8 = 0x1B;
const CLC: u8 = 0x0B;
const OE: u8 = 0x44;
const TLA: u8 = 0x12;
const LM: u8 = 0x38;
const CI: u8 = 0x17;
const CLI: u8 = 0x16;
const RT: u8 = 0x48;
const IA: u8 = 0x40;
const NOP: u8 = 0x00;

/// "Word 79 is the flag word".
const FLAG_WORD: u8 = 0x79;

pub fn cases() -> Vec<Case> {
    let mut cases = Vec::new();
    for code in (0..=255).filter(|&code| !is_none(code)) {
        let mut draw = Draw::new(1_000 + u64::from(code));
        for _ in 0..2 {
            if !always_skips(code) {
                cases.push(first(code, false, &mut draw));
            }
            if can_skip(code) {
                cases.push(first(code, true, &mut draw));
            }
        }
        if !leads_away(code) {
            cases.push(series(code, &mut draw));
        }
    }
    cases.extend(far());
    cases
}

/// JPA, RT, RTS, JMP, CAL, CZP and JCP.
fn leads_away(code: u8) -> bool {
    matches!(code, 0x41 | 0x48 | 0x49 | 0xA0..)
}

fn has_second_byte(code: u8) -> bool {
    matches!(code, 0x14..=0x17 | 0x1E | 0xA0..=0xAF)
}

/// OP, IP, TPB, RPB and SPB, which look at the port that DPL names.
fn names_port(code: u8) -> bool {
    matches!(code, 0x0E | 0x32 | 0x50..=0x53 | 0x60..=0x63 | 0x70..=0x73)
}

/// FBF, FBT, RFB and SFB.
fn looks_at_flags(code: u8) -> bool {
    matches!(code, 0x20..=0x23 | 0x5C..=0x5F | 0x6C..=0x6F | 0x7C..=0x7F)
}

/// Codes with a bit number.
fn looks_at_bits(code: u8) -> bool {
    matches!(code, 0x20..=0x27 | 0x34..=0x37 | 0x50..=0x7F)
}

/// A run of a few cycles that begins with this code, drawn until it skips or doesn't.
fn first(code: u8, skips: bool, draw: &mut Draw) -> Case {
    loop {
        let mut state = draw.state();
        state.owed = 0;
        if names_port(code) {
            state.dpl = draw.upto(9);
        }
        if code == DI {
            (state.int, state.inte) = (0, 1);
        }
        let case = beginning_with(code, &state, draw);
        let mut coverage = Coverage::new();
        case.clone().n(1).run(&mut coverage);
        let counts = if skips {
            coverage.skipped
        } else {
            coverage.plain
        };
        if counts[usize::from(code)] > 0 {
            return case;
        }
    }
}

fn beginning_with(code: u8, state: &State, draw: &mut Draw) -> Case {
    let pc = state.pc;
    let second = match draw.below(4) {
        0 if code == CI => draw.upto(15) << 4 | state.acc,
        0 if code == CLI => draw.upto(15) << 4 | state.dpl,
        _ => draw.byte(),
    };
    let filter = draw.of(&[0, NO_STOPS | INSIDE]);
    let mut case = Case::new(format!("code {code:02X} first"))
        .made_rom(draw.seed(), filter)
        .rom(pc, &[code])
        .made_ram(draw.seed())
        .schedule(&draw.records(state.cycle))
        .state(state.clone())
        .log(draw.of(&[8, 16, 24, 40]))
        .n(1 + draw.below(5));
    if has_second_byte(code) {
        case = case.rom(after(pc), &[second]);
    }
    case
}

fn after(pc: u16) -> u16 {
    pc & 0x700 | (pc + 1) & 0x0FF
}

/// A straight program of nine parts. Each sets DP, M, Acc and C, executes the code, and puts Acc,
/// DPL and M into the log, whose cycles show the skips.
fn series(code: u8, draw: &mut Draw) -> Case {
    let mut program = Vec::new();
    for part in 0..9 {
        let dp = if names_port(code) {
            draw.upto(15) << 4 | part
        } else if looks_at_flags(code) {
            FLAG_WORD
        } else {
            draw.upto(15) << 4 | draw.word()
        };
        program.extend(one_part(code, dp, draw));
    }
    let field = draw.below(7) as u16 * 0x100;
    let start = if field == 0 { 0x40 } else { field };
    let mut state = draw.state();
    state.pc = start;
    state.owed = 0;
    Case::new(format!("code {code:02X} in a series"))
        .rom(start, &program)
        .rom(0x3C, &[RT])
        .made_ram(draw.seed())
        .made_schedule(200, draw.seed(), 18, state.cycle)
        .state(state)
        .log(draw.of(&[300, 400, 500]))
        .n(190)
}

fn one_part(code: u8, dp: u8, draw: &mut Draw) -> Vec<u8> {
    let (acc, m) = if looks_at_bits(code) {
        (draw.upto(15), draw.upto(15))
    } else {
        (draw.word(), draw.word())
    };
    let mut part = vec![LDI, dp, LI | m, S, LI | acc, draw.of(&[STC, CLC]), code];
    if has_second_byte(code) {
        part.push(match draw.below(2) {
            0 if code == CI => draw.upto(15) << 4 | acc,
            0 if code == CLI => draw.upto(15) << 4 | dp & 15,
            _ => draw.byte(),
        });
    }
    let any = draw.byte();
    part.extend(draw.of(&[[NOP, NOP], [IA, NOP], [CI, any]]));
    part.extend([OE, TLA, OE, LM, OE]);
    part
}

/// Jumps and calls at the ends of pages and fields.
fn far() -> Vec<Case> {
    let mut cases = Vec::new();
    let mut draw = Draw::new(7);
    for acc in 0..16 {
        let pc = draw.address();
        let mut state = draw.state();
        state.pc = pc;
        state.acc = acc;
        state.owed = 0;
        state.int = 0;
        let name = format!("JPA at {pc:03X} with Acc {acc}");
        cases.push(Case::new(name).rom(pc, &[0x41]).state(state).n(3));
    }
    for pc in [0x03F, 0x07F, 0x0BF, 0x0FF, 0x1FE, 0x2FF, 0x6FE, 0x73F] {
        for program in [
            [0xC5, 0x00],
            [0xFF, 0x00],
            [0xA3, 0x21],
            [0xAB, 0x21],
            [0xB7, 0x00],
        ] {
            let name = format!("{:02X} at {pc:03X}", program[0]);
            cases.push(
                Case::new(name)
                    .rom(pc, &program[..1])
                    .rom(after(pc), &program[1..])
                    .with(|state| state.pc = pc)
                    .n(4),
            );
        }
    }
    cases
}

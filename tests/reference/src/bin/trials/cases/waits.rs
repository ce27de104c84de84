//! The waiting loop, TTM and a JCP back to it, at its corners: entered with every mark, with an interrupt
//! that a mark holds back, with TTM at the ends of pages and at 7CF. Steps tell where it was jumped.

use reference::case::Case;

/// The cycle in which TM is set after STM 80 in cycles 0 and 1.
const SET: u64 = 64;

/// Codes of the programs.
const NOP: u8 = 0x00;
const TTM: u8 = 0x05;
const STM: u8 = 0x14;
const LDI: u8 = 0x15;
const EI: u8 = 0x31;
const LI: u8 = 0x90;
const JCP: u8 = 0xC0;

pub fn cases() -> Vec<Case> {
    let mut cases = entered();
    cases.extend(given_marks());
    cases.extend(held_back());
    cases.extend(falls());
    cases.extend(ends_of_pages());
    cases.extend(end_of_the_rom());
    cases
}

/// These instructions at 000, a waiting loop directly after them, and OE behind it.
fn program(name: String, before: &[u8]) -> Case {
    let mut rom = before.to_vec();
    rom.extend([TTM, JCP | before.len() as u8, 0x44]);
    Case::new(name)
        .rom(0, &rom)
        .rom(0x3C, &[0x0D, 0x44, 0x31, 0x48])
}

/// The wait begins with the mark of the instruction before it, and the run ends before, at and after TM
/// is set. Intervals of 63 and of 126 cycles.
fn entered() -> Vec<Case> {
    let mut cases = Vec::new();
    let befores: [(&str, &[u8]); 11] = [
        ("STM", &[]),
        ("NOP", &[NOP]),
        ("EI", &[EI]),
        ("two EI", &[EI, EI]),
        ("LDI", &[LDI, 0x25]),
        ("two LDI", &[LDI, 0x25, LDI, 0x36]),
        ("EI and LDI", &[EI, LDI, 0x25]),
        ("LDI and EI", &[LDI, 0x25, EI]),
        ("LI", &[LI | 9]),
        ("two LI", &[LI | 9, LI | 6]),
        ("EI and LI", &[EI, LI | 9]),
    ];
    for (name, before) in befores {
        for (operand, set) in [(0x80, SET), (0x81, SET + 63)] {
            let mut start = vec![STM, operand];
            start.extend(before);
            for n in [9, set, set + 1, set + 2, set + 9] {
                let name = format!("wait after {name}, STM {operand:02X}, {n} cycles");
                cases.push(program(name, &start).n(n).ends(0));
            }
        }
    }
    cases
}

/// Every mark in the state given, with even and odd ticks left and with one.
fn given_marks() -> Vec<Case> {
    let mut cases = Vec::new();
    for mark in 0..=4 {
        for (register, counter) in [(1, 0), (2, 0), (1, 1), (32, 0), (16, 0)] {
            for inte in [0, 1] {
                let name = format!(
                    "wait with mark {mark}, register {register}, counter {counter}, INTE {inte}"
                );
                cases.push(
                    program(name, &[])
                        .with(|state| (state.mark, state.inte) = (mark, inte))
                        .with(|state| (state.register, state.counter) = (register, counter))
                        .n(100)
                        .ends(0),
                );
            }
        }
    }
    cases
}

/// INT and INTE both 1 where TTM is due: with mark EI, LDI and LI no jump and no acceptance yet, with the
/// others acceptance.
fn held_back() -> Vec<Case> {
    let mut cases = Vec::new();
    for n in 3..=9 {
        cases.push(
            program(
                format!("INT set, wait after EI, {n} cycles"),
                &[STM, 0x80, EI],
            )
            .with(|state| state.int = 1)
            .n(n)
            .ends(0),
        );
    }
    for mark in 0..=4 {
        for n in 1..=4 {
            let name = format!("INT and INTE 1, wait with mark {mark}, {n} cycles");
            cases.push(
                program(name, &[])
                    .with(|state| (state.int, state.inte, state.mark) = (1, 1, mark))
                    .with(|state| (state.register, state.counter) = (1, 1))
                    .n(n)
                    .ends(0),
            );
        }
    }
    cases
}

/// A fall of INT before, in and after the cycle of EI, which is cycle 2, with the wait directly after it.
fn falls() -> Vec<Case> {
    let mut cases = Vec::new();
    for fall in 0..=8 {
        for n in [5, 80] {
            let name = format!("INT falls at {fall}, wait after EI in cycle 2, {n} cycles");
            cases.push(
                program(name, &[STM, 0x80, EI])
                    .schedule(&[(fall, 0, 0, 0), (fall + 20, 0, 0, 1)])
                    .n(n)
                    .ends(0),
            );
        }
    }
    cases
}

/// TTM at the last address of a page: no JCP at the next address leads back. At the address before it one
/// does, and at the first address of a page too.
fn ends_of_pages() -> Vec<Case> {
    let mut cases = Vec::new();
    for ttm in [
        0x03E, 0x03F, 0x040, 0x07F, 0x0BF, 0x0FE, 0x0FF, 0x100, 0x1FF, 0x6FF, 0x73F, 0x77F,
    ] {
        let next = ttm & 0x700 | (ttm + 1) & 0x0FF;
        for code in [JCP | (ttm & 0x3F) as u8, JCP] {
            let name = format!("TTM at {ttm:03X}, {code:02X} at {next:03X}");
            cases.push(
                Case::new(name)
                    .rom(ttm, &[TTM])
                    .rom(next, &[code])
                    .with(|state| state.pc = ttm)
                    .with(|state| (state.register, state.counter) = (1, 0))
                    .n(12)
                    .ends(0),
            );
        }
    }
    cases
}

/// TTM at 7CF has no next address; at 7CE it has.
fn end_of_the_rom() -> Vec<Case> {
    let mut cases = Vec::new();
    for mark in 0..=4 {
        for n in [1, 2, 9] {
            cases.push(
                Case::new(format!("TTM at 7CF, mark {mark}, {n} cycles"))
                    .rom(0x7CF, &[TTM])
                    .with(|state| (state.pc, state.mark) = (0x7CF, mark))
                    .with(|state| (state.register, state.counter) = (1, 0))
                    .n(n)
                    .ends(if n == 1 { 0 } else { 22 }),
            );
        }
        cases.push(
            Case::new(format!("TTM at 7CE, mark {mark}, CE at 7CF"))
                .rom(0x7CE, &[TTM, 0xCE])
                .with(|state| (state.pc, state.mark) = (0x7CE, mark))
                .with(|state| (state.register, state.counter) = (1, 0))
                .n(9)
                .ends(0),
        );
    }
    cases
}

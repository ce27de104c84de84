//! Smaller chips: every code at the sheet's last address, what lies behind it, calls that are lost, rows that aren't there, states
//! that hold what isn't there, and sheets that are none; `drawn_sheets.rs` has drawn ones.

use reference::case::{record, Case};
use reference::codes::{can_skip, is_none};
use reference::draw::Draw;
use reference::sheets::{legal, wrong, HALF, LEAST, PAGE, ROMS};
use reference::{Sheet, State};

/// Where the interrupt leads.
const ANSWER: u64 = 0x03C;

fn sheet(rom: u64, rows: u64, levels: u64) -> Sheet {
    Sheet { rom, rows, levels }
}

fn last(sheet: Sheet) -> u16 {
    sheet.rom as u16 - 1
}

pub fn cases() -> Vec<Case> {
    let mut cases = codes_at_the_end();
    cases.extend(behind_the_end());
    cases.extend(skipped_at_the_end());
    cases.extend(answers());
    cases.extend(calls_by_czp());
    cases.extend(jumps());
    cases.extend(waits());
    cases.extend(lost_calls());
    cases.extend(stacks());
    cases.extend(rows());
    cases.extend(rows_by_code());
    cases.extend(absent());
    cases.extend(rom_lengths());
    cases.extend(no_sheets());
    cases.extend(orders());
    cases
}

/// Some of few bytes: refused sheets close to one, and pushes and pops of two cycles.
pub fn few() -> Vec<Case> {
    let mut cases = no_sheets();
    cases.truncate(2 * wrong(HALF).len());
    cases.retain(|case| case.cycles() == 3);
    cases.extend(stacks().into_iter().filter(|case| case.cycles() == 2));
    cases
}

fn has_second_byte(code: u8) -> bool {
    matches!(code, 0x14..=0x17 | 0x1E | 0xA0..=0xAF)
}

/// Every code at the last address of some chips, on two states where it can skip; of the other chips those that can skip and
/// those of two bytes. "7CF .. read as the sheet's last address".
fn codes_at_the_end() -> Vec<Case> {
    let mut cases = Vec::new();
    for rom in ROMS {
        let all = matches!(rom, 1 | 64 | 256 | 1_000);
        for code in 0..=255 {
            if !all && !can_skip(code) && !has_second_byte(code) {
                continue;
            }
            let mut draw = Draw::new(7_000 + 256 * rom + u64::from(code));
            for _ in 0..if can_skip(code) { 2 } else { 1 } {
                cases.push(code_at_the_end(rom, code, &mut draw));
            }
        }
    }
    cases
}

fn code_at_the_end(rom: u64, code: u8, draw: &mut Draw) -> Case {
    let sheet = Sheet {
        rom,
        ..draw.sheet()
    };
    let mut state = draw.state();
    state.pc = last(sheet);
    state.owed = 0;
    state.int = 0;
    let log = if draw.one_in(4) { 0 } else { 64 };
    let case = Case::new(format!("{code:02X} at the end of {rom} bytes"))
        .sheet(sheet)
        .rom(state.pc, &[code])
        .made_ram(draw.seed())
        .schedule(&draw.records(state.cycle))
        .state(sheet.fitted(&state))
        .log(log)
        .n(1 + draw.below(4));
    if is_none(code) {
        return case.ends(23);
    }
    if has_second_byte(code) && rom != 256 {
        return case.ends(22);
    }
    case
}

/// PC behind the end: the byte isn't there, though the PC is legal; also at 7FF. Cycles that are owed are done.
fn behind_the_end() -> Vec<Case> {
    let mut cases = Vec::new();
    for sheet in legal() {
        for pc in [sheet.rom as u16, sheet.rom as u16 + 1, 0x7CF, 0x7FF] {
            for owed in [0, 2] {
                cases.push(
                    Case::new(format!("PC {pc:03X} of {} bytes, owed {owed}", sheet.rom))
                        .sheet(sheet)
                        .with(|state| (state.pc, state.owed) = (pc, owed))
                        .n(3)
                        .ends(22),
                );
            }
        }
    }
    cases
}

/// "only its first byte is read": two bytes that are passed over may have their second one behind the end.
fn skipped_at_the_end() -> Vec<Case> {
    let mut cases = Vec::new();
    for rom in [2, 63, 64, 65, 1_000, 1_999] {
        for (passed, n, number) in [
            (0x00, 2, 0),
            (0x17, 3, 0),
            (0x17, 4, 22),
            (0x1C, 2, 0),
            (0x45, 3, 22),
        ] {
            // TC with C 1.
            let at = rom as u16 - 2;
            cases.push(
                Case::new(format!(
                    "TC passes {passed:02X} at the end of {rom}, {n} cycles"
                ))
                .sheet(sheet(rom, 1, 2))
                .rom(at, &[0x04, passed])
                .with(|state| (state.pc, state.carry) = (at, 1))
                .n(n)
                .ends(number),
            );
        }
    }
    cases
}

/// An acceptance where 03C is the last byte, and where it isn't there: it is done, and the next cycle stops.
fn answers() -> Vec<Case> {
    let mut cases = Vec::new();
    for rom in [1, 2, 59, 60, 61, 62, 63, 64] {
        for levels in 1..=3 {
            for n in [1, 2, 3] {
                // JCP 000, and OE at 03C.
                let there = rom > ANSWER;
                let after_oe = rom == ANSWER + 1;
                cases.push(
                    Case::new(format!(
                        "an answer of {rom} bytes, {levels} levels, {n} cycles"
                    ))
                    .sheet(sheet(rom, 0, levels))
                    .rom(0, &[0xC0])
                    .rom(ANSWER as u16, &[0x44])
                    .with(|state| (state.int, state.inte) = (1, 1))
                    .with(|state| {
                        let levels = levels as usize;
                        state.stack[..levels].copy_from_slice(&[0x123, 0x456, 0x7FF][..levels]);
                    })
                    .n(n)
                    .ends(match n {
                        1 => 0,
                        _ if !there => 22,
                        // OE takes two cycles.
                        3 if after_oe => 0,
                        _ => 0,
                    }),
                );
            }
        }
    }
    cases
}

/// CZP to each of its 16 addresses, of which some aren't there.
fn calls_by_czp() -> Vec<Case> {
    let mut cases = Vec::new();
    for rom in [1, 2, 4, 5, 32, 60, 61, 64] {
        for k in 0..16 {
            let there = u64::from(k) * 4 < rom;
            cases.push(
                Case::new(format!("CZP {k} of {rom} bytes"))
                    .sheet(sheet(rom, 0, 1 + u64::from(k) % 3))
                    .rom(rom as u16 - 1, &[0xB0 | k])
                    .with(|state| state.pc = rom as u16 - 1)
                    .n(2)
                    .ends(if there { 0 } else { 22 }),
            );
        }
    }
    cases
}

/// JMP, CAL, JCP, JPA and RT to the last address and behind it; RTS needs the byte there.
fn jumps() -> Vec<Case> {
    let mut cases = Vec::new();
    for sheet in [PAGE, HALF, sheet(256, 31, 1), sheet(1_999, 7, 3)] {
        for (to, there) in [(last(sheet), true), (sheet.rom as u16, false)] {
            let [high, low] = to.to_be_bytes();
            let name = |word: &str| format!("{word} {to:03X} of {} bytes", sheet.rom);
            let end = |number| if there { 0 } else { number };
            for (word, code) in [("JMP", 0xA0), ("CAL", 0xA8)] {
                cases.push(
                    Case::new(name(word))
                        .sheet(sheet)
                        .rom(2, &[code | high, low])
                        .with(|state| state.pc = 2)
                        .n(3)
                        .ends(end(22)),
                );
            }
            for (word, code, n, number) in [("RT", 0x48, 3, 22), ("RTS", 0x49, 1, 22)] {
                cases.push(
                    Case::new(name(word))
                        .sheet(sheet)
                        .rom(2, &[code])
                        .with(|state| (state.pc, state.stack[0]) = (2, to))
                        .n(n)
                        .ends(end(number)),
                );
            }
            let from = to & 0x7C0;
            if u64::from(from) < sheet.rom {
                cases.push(
                    Case::new(name("JCP"))
                        .sheet(sheet)
                        .rom(from, &[0xC0 | (to & 63) as u8])
                        .with(|state| state.pc = from)
                        .n(2)
                        .ends(end(22)),
                );
            }
        }
    }
    cases
}

/// TTM with its JCP at the last two addresses; TTM at the last one, whose JCP isn't there; and the first of a page.
fn waits() -> Vec<Case> {
    let mut cases = Vec::new();
    for rom in [2, 63, 64, 65, 256, 1_000, 1_999] {
        for n in [5, 60, 63, 64, 65, 70] {
            let at = rom as u16 - 2;
            let wait = |at: u16| {
                Case::new(format!("TTM at {at:03X} of {rom} bytes, {n} cycles"))
                    .sheet(sheet(rom, 0, 1))
                    .with(|state| (state.pc, state.register) = (at, 1))
                    .n(n)
            };
            let back = 0xC0 | (at & 63) as u8;
            let whole = wait(at).rom(at, &[0x05, back]);
            // Of 65 bytes the JCP is in another page; of 256 the address behind the skip is 000.
            cases.push(match rom {
                65 => whole.ends(22),
                256 => whole,
                _ => whole.ends(if n > 65 { 22 } else { 0 }),
            });
            let alone = wait(at + 1).rom(at + 1, &[0x05]);
            cases.push(if rom == 256 { alone } else { alone.ends(22) });
        }
    }
    cases
}

/// Calls one in the other, one more than there are levels, then returns: a push "loses the oldest", and "the lowest keeps its value".
fn lost_calls() -> Vec<Case> {
    let mut cases = Vec::new();
    for levels in 1..=3 {
        for (name, back) in [("RT", 0x48), ("RTS", 0x49)] {
            for n in (6..=24).step_by(2) {
                cases.push(
                    Case::new(format!("call {} is lost, {name}, {n} cycles", levels + 1))
                        .sheet(sheet(1_000, 3, levels))
                        .rom(0x000, &[0xA9, 0x00, 0x00, 0x00, back, 0x00, 0x00, 0x00])
                        .rom(0x100, &[0xAA, 0x10, back, 0x00, 0x00])
                        .rom(0x210, &[0xAB, 0x20, back, 0x00, 0x00])
                        .rom(0x320, &[0xB1, back, 0x00, 0x00])
                        .n(n)
                        .ends(0),
                );
            }
        }
        // An interrupt in the innermost call takes a level too.
        for n in [4, 5, 6, 8, 10, 12] {
            cases.push(
                Case::new(format!("an answer in a call, {levels} levels, {n} cycles"))
                    .sheet(sheet(1_000, 3, levels))
                    .rom(0x000, &[0xA9, 0x00, 0x00, 0xC3])
                    .rom(0x100, &[0xAA, 0x10, 0x48])
                    .rom(0x210, &[0x00, 0x00, 0x00, 0x48])
                    .rom(0x03C, &[0x48])
                    .with(|state| state.inte = 1)
                    .schedule(&[(4, 0, 0, 0)])
                    .n(n)
                    .ends(0),
            );
        }
    }
    cases
}

/// Single pushes and pops on full stacks.
fn stacks() -> Vec<Case> {
    let mut cases = Vec::new();
    for levels in 1..=3 {
        for (name, code) in [
            ("CZP", [0xB2, 0x00]),
            ("CAL", [0xA8, 0x20]),
            ("RT", [0x48, 0x00]),
            ("RTS", [0x49, 0x00]),
        ] {
            for n in 1..=5 {
                let sheet = sheet(64, 0, levels);
                let full = State {
                    pc: 4,
                    stack: [0x008, 0x010, 0x018],
                    ..State::fresh()
                };
                cases.push(
                    Case::new(format!("{name} on {levels} full levels, {n} cycles"))
                        .sheet(sheet)
                        .rom(4, &code)
                        .rom(8, &[0x48, 0x48, 0x48, 0x48])
                        .state(sheet.fitted(&full))
                        .n(n)
                        .ends(0),
                );
            }
        }
    }
    cases
}

/// Every row in turn is written, counted up and down and read to E, by chips with any rows.
fn rows() -> Vec<Case> {
    let mut code = vec![];
    for row in 0..8 {
        // LDI, LI 9, S, INM, NOP, DEM, NOP, LM, OE; LDI, LI 6, XMI, NOP, LDI, LM, OE.
        code.extend([
            0x15,
            row << 4 | 5,
            0x99,
            0x02,
            0x1D,
            0x00,
            0x1F,
            0x00,
            0x38,
            0x44,
        ]);
        code.extend([
            0x15,
            row << 4 | 6,
            0x96,
            0x3C,
            0x00,
            0x15,
            row << 4 | 6,
            0x38,
            0x44,
        ]);
    }
    (0..32)
        .map(|rows| {
            Case::new(format!("every row, of which there are {rows:05b}"))
                .sheet(sheet(256, rows, 3))
                .rom(0, &code)
                .made_ram(rows as u32 + 1)
                .log(200)
                .n(180)
                .ends(0)
        })
        .collect()
}

/// What looks at M or writes it, in each row of two chips: "a skip looks at the computed value", also in a row that isn't there.
fn rows_by_code() -> Vec<Case> {
    let mut cases = Vec::new();
    for rows in [0b10101, 0b01010] {
        for (name, code) in [
            ("INM", 0x1D),
            ("DEM", 0x1F),
            ("S", 0x02),
            ("AD", 0x08),
            ("ADS", 0x09),
            ("CM", 0x0C),
            ("EXL", 0x18),
            ("ADC", 0x19),
            ("XM", 0x29),
            ("XMD", 0x2E),
            ("XMI", 0x3F),
            ("CMB", 0x35),
            ("LM", 0x3A),
            ("TMB", 0x59),
            ("RMB", 0x6A),
            ("SMB", 0x79),
        ] {
            for row in 0..8 {
                let mut draw = Draw::new(9_000 + 8 * u64::from(code) + u64::from(row));
                cases.push(
                    Case::new(format!(
                        "{name} in row {row}, of which there are {rows:05b}"
                    ))
                    .sheet(sheet(64, rows, 2))
                    .rom(7, &[code, 0x17, 0x00, 0x00])
                    .made_ram(draw.seed())
                    .with(|state| (state.pc, state.dph, state.dpl) = (7, row, draw.upto(15)))
                    .with(|state| (state.acc, state.carry) = (draw.upto(15), draw.upto(1)))
                    .n(1 + draw.below(3))
                    .ends(0),
                );
            }
        }
    }
    cases
}

/// "holds zeros for what is absent, else 34": the first and the last word of each row, and each level.
fn absent() -> Vec<Case> {
    let mut cases = Vec::new();
    for sheet in [HALF, PAGE, LEAST, sheet(1_000, 31, 1), sheet(9, 0b01000, 3)] {
        for (place, row) in [0, 1, 2, 3, 4, 7].into_iter().enumerate() {
            let there = row == 7 || sheet.rows >> row & 1 == 1;
            for column in [0, 15] {
                let at = 16 * place as u16 + column;
                let name = format!("a word in row {row} of rows {:05b}", sheet.rows);
                cases.push(
                    Case::new(name)
                        .sheet(sheet)
                        .ram(at, &[1])
                        .n(1)
                        .ends(if there { 0 } else { 34 }),
                );
            }
        }
        for level in 0..3 {
            let there = level < sheet.levels as usize;
            for word in [1, 0x400, 0x7FF] {
                let name = format!("{word:03X} in level {level} of {}", sheet.levels);
                cases.push(
                    Case::new(name)
                        .sheet(sheet)
                        .with(|state| state.stack[level] = word)
                        .n(1)
                        .ends(if there { 0 } else { 34 }),
                );
            }
        }
        // PC and the words of levels keep 11 bits; a word in a row that is there keeps four.
        let name = format!("PC 7FF and no cycle of {} bytes", sheet.rom);
        let pc = |pc: u16| {
            Case::new(name.clone())
                .sheet(sheet)
                .with(|state| state.pc = pc)
        };
        cases.push(pc(0x7FF).ends(0));
        cases.push(pc(0x800).ends(34));
    }
    cases
}

/// 21 by the sheet's length: one byte less or more, none, and the uPD546's.
fn rom_lengths() -> Vec<Case> {
    let mut cases = Vec::new();
    for sheet in legal() {
        let rom = sheet.rom as u16;
        for length in [0, rom - 1, rom + 1, 2_000] {
            for n in [0, 1] {
                cases.push(
                    Case::new(format!(
                        "a ROM of {length} bytes where {rom} are due, n {n}"
                    ))
                    .sheet(sheet)
                    .rom_length(length)
                    .n(n)
                    .ends(21),
                );
            }
        }
    }
    cases
}

/// "71 .. a sheet outside these limits", judged at full width.
fn no_sheets() -> Vec<Case> {
    let mut cases = Vec::new();
    for sheet in [HALF, LEAST, Sheet::UPD546] {
        for wrong in wrong(sheet) {
            let Sheet { rom, rows, levels } = wrong;
            for n in [0, 3] {
                cases.push(
                    Case::new(format!("a sheet of {rom}, {rows}, {levels}, n {n}"))
                        .sheet(wrong)
                        .rom_length(sheet.rom as u16)
                        .n(n)
                        .ends(71),
                );
            }
        }
    }
    cases
}

/// Every fault with all those that come after it: 71, 21, 12, 11, 13, 34, 2.
fn orders() -> Vec<Case> {
    let limit = |case: Case| case.with(|state| state.cycle = (1 << 48) - 1).n(9);
    let absent = |case: Case| limit(case).ram(16 * 4, &[3]);
    let bytes = |case: Case| {
        let bad = record(0, 0, 0, 7);
        absent(case)
            .made_schedule(10, 0, 0, 0)
            .schedule_bytes(0, &bad)
    };
    let torn = |case: Case| bytes(case).made_schedule(15, 3, 5, 0);
    let long = |case: Case| torn(case).made_schedule(40_970, 3, 5, 0);
    let short = |case: Case| long(case).rom_length(999);
    let none = |case: Case| short(case.sheet(Sheet { levels: 0, ..HALF }));
    let first = |name: &str| Case::new(format!("{name} and all behind it")).sheet(HALF);
    vec![
        limit(first("2")).ends(2),
        absent(first("34")).ends(34),
        bytes(first("13")).ends(13),
        torn(first("11")).ends(11),
        long(first("12")).ends(12),
        short(first("21")).ends(21),
        none(first("71")).ends(71),
    ]
}

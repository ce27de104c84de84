//! Panels of smaller chips. What a cut could lose there: a level that the chip has, a row that it has; and what it could bring
//! in: a word or a level that it hasn't.

use reference::case::{Case, FEW_JCP, FEW_JUMPS, INSIDE, NO_STOPS};
use reference::draw::Draw;
use reference::sheets::{HALF, LEAST, PAGE};
use reference::Sheet;

/// A ROM on which a run goes on and comes round by many ways.
const LASTING: u8 = NO_STOPS | FEW_JCP | INSIDE | FEW_JUMPS;

/// At 03C: INC Z, OE, EI, RT.
const ANSWER: [u8; 7] = [0x4A, 0x0D, 0x00, 0x4A, 0x44, 0x31, 0x48];

fn sheet(rom: u64, rows: u64, levels: u64) -> Sheet {
    Sheet { rom, rows, levels }
}

pub fn panels() -> Vec<Case> {
    let mut panels = shortest();
    panels.extend(pages());
    panels.extend(levels());
    panels.extend(rows());
    panels.extend(any());
    panels.extend((1..=4).map(drawn));
    panels
}

/// ROMs of one and of two bytes.
fn shortest() -> Vec<Case> {
    vec![
        // JCP 000.
        Case::new("one byte, no row, one level")
            .sheet(LEAST)
            .rom(0, &[0xC0])
            .with(|state| state.stack = [0x7FF, 0, 0])
            .ram(80, &[1, 2, 3, 4])
            .made_schedule(300, 12, 9, 0)
            .resets(5)
            .n(300)
            .ends(0),
        // TTM and JCP 000: behind the wait the skip passes the end.
        Case::new("two bytes that wait")
            .sheet(sheet(2, 0, 1))
            .rom(0, &[0x05, 0xC0])
            .with(|state| (state.register, state.counter) = (1, 2))
            .schedule(&[(40, 0, 0, 0), (90, 0, 0, 1), (91, 0, 0, 0)])
            .n(200)
            .ends(22),
    ]
}

/// ROMs that end around the first page, and answers to INT that do or don't fit.
fn pages() -> Vec<Case> {
    // EI, INM, JCP 001, OE, JCP 001: the first words of row 7 are counted, since LDI isn't there.
    let count = [0x31, 0x1D, 0xC1, 0x44, 0xC1];
    vec![
        // The answer is OE, EI, RT, up to the last address.
        Case::new("63 bytes, an answer that just fits")
            .sheet(sheet(63, 1, 1))
            .rom(0, &count)
            .rom(0x3C, &[0x44, 0x31, 0x48])
            .made_schedule(3_000, 21, 7, 3)
            .n(900)
            .ends(0),
        // OE, INC, EI, RT.
        Case::new("64 bytes, an answer and a wait")
            .sheet(PAGE)
            .rom(0, &[0x31, 0x14, 0x81, 0x05, 0xC3, 0x1D, 0xC1, 0xC1])
            .rom(0x3C, &[0x44, 0x33, 0x31, 0x48])
            .made_schedule(800, 22, 60, 5)
            .n(1_500)
            .ends(0),
        // CAL 040 and RT there; a jump to 041 behind 16 of them.
        Case::new("65 bytes, a subroutine of the last one")
            .sheet(sheet(65, 0b00100, 1))
            .rom(0, &[0x15, 0x27, 0xA8, 0x40, 0x1D, 0xC2, 0x44, 0xA0, 0x41])
            .rom(0x40, &[0x48])
            .n(250)
            .ends(22),
        // The acceptance leads to 03C, which isn't there.
        Case::new("60 bytes without an answer")
            .sheet(sheet(60, 0b11111, 2))
            .rom(0, &count)
            .rom(0x3B, &[0x48])
            .schedule(&[(300, 0, 0, 0)])
            .n(400)
            .ends(22),
    ]
}

/// Calls that are lost, and interrupts within them.
fn levels() -> Vec<Case> {
    let mut cases = Vec::new();
    for levels in 1..=3 {
        // EI; CAL 080, OE, JCP 001.
        let nested = Case::new(format!("calls in calls, levels: {levels}"))
            .sheet(sheet(1_000, 0b00011, levels))
            .rom(0, &[0x31, 0xA8, 0x80, 0x44, 0xC1])
            // INC, OE, CAL 100, OE, RT; the same from 100 and from 200 on, and the last is without a call.
            .rom(0x80, &[0x0D, 0x44, 0xA9, 0x00, 0x44, 0x0D, 0x48])
            .rom(0x100, &[0x0D, 0x44, 0xAA, 0x00, 0x44, 0x0D, 0x49, 0x00])
            .rom(0x200, &[0x0D, 0x44, 0xAB, 0x10, 0x44, 0x0D, 0x48])
            .rom(0x310, &[0x0D, 0x44, 0x49, 0x00])
            .rom(0x3C, &ANSWER)
            .made_schedule(6_000, 23, 40, 1)
            .n(1_200)
            .ends(0);
        cases.push(nested);
    }
    cases
}

/// Every row is counted up and down and read to E, those that exist and those that don't.
fn rows() -> Vec<Case> {
    let mut code = vec![];
    for row in 0..8 {
        // LDI, INM, NOP, DEM, NOP, INM, NOP, LM, OE, LDI of the next column, XMI, NOP.
        code.extend([0x15, row << 4 | 5, 0x1D, 0x00, 0x1F, 0x00, 0x1D, 0x00]);
        code.extend([0x38, 0x44, 0x15, row << 4 | 6, 0x3C, 0x00]);
    }
    code.extend([0xA0, 0x00]);
    [0b00000, 0b10101, 0b01010, 0b11110]
        .into_iter()
        .map(|rows| {
            Case::new(format!("every row, of which there are {rows:05b}"))
                .sheet(sheet(256, rows, 3))
                .rom(0, &code)
                .made_ram(7)
                .n(900)
                .ends(0)
        })
        .collect()
}

/// ROMs of the generator, with records, interrupts and resets; and the panel of the usual kind.
fn any() -> Vec<Case> {
    let any = |name: &str, sheet: Sheet, seed: u32| {
        Case::new(format!("any ROM of {name}"))
            .sheet(sheet)
            .made_rom(seed, LASTING)
            .made_ram(seed)
            .made_schedule(4_000, seed + 7, 12, 0)
            .resets(30)
            .n(1_200)
            .ends(0)
    };
    vec![
        any("256 bytes", sheet(256, 0b00001, 1), 3_003),
        any("1,000 bytes", HALF, 1_001),
        any("1,999 bytes", sheet(1_999, 0b01110, 3), 2_009),
        // EI, STM 4, TTM, JCP 003, DI, CAL 100, JCP 000: two calls deep, with words of rows 1, 2 and 0, and port F from row 1.
        Case::new("waits of a panel of 1,000 bytes")
            .sheet(HALF)
            .rom(0, &[0x31, 0x14, 0x84, 0x05, 0xC3, 0x01, 0xA9, 0x00, 0xC0])
            .rom(0x100, &[0x15, 0x13, 0x1D, 0x00, 0xAB, 0xE0, 0x48])
            .rom(0x3E0, &[0x38, 0x85, 0x0E, 0x15, 0x2F, 0x1D, 0x00, 0x48])
            .rom(0x3C, &ANSWER)
            .made_schedule(900, 31, 90, 40)
            .n(2_000)
            .ends(0),
    ]
}

/// A ROM of the generator under a drawn sheet.
fn drawn(seed: u32) -> Case {
    let mut draw = Draw::new(13_000 + u64::from(seed));
    let sheet = Sheet {
        rom: draw.of(&[256, 257, 1_000, 1_500, 1_999]),
        ..draw.sheet()
    };
    Case::new(format!("drawn {seed}, under {sheet:?}"))
        .sheet(sheet)
        .made_rom(draw.seed(), LASTING)
        .made_ram(draw.seed())
        .made_schedule(3_000, draw.seed(), 12, 0)
        .resets(40)
        .n(700)
        .ends(0)
}

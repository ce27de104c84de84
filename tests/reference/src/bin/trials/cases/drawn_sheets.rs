//! Runs on ROMs of the generator under drawn sheets, from states that are drawn too.

use reference::case::{Case, FEW_JCP, FEW_JUMPS, INSIDE, NO_STOPS};
use reference::draw::Draw;
use reference::Sheet;

/// A ROM on which a run goes on and comes round by many ways.
const LASTING: u8 = NO_STOPS | FEW_JCP | INSIDE | FEW_JUMPS;

pub fn cases() -> Vec<Case> {
    let mut cases = Vec::new();
    for place in 0..150 {
        cases.push(short(place));
    }
    for place in 0..60 {
        cases.push(lasting(place));
    }
    cases
}

/// A few cycles from any state, with records and at times resets around them; PC and stack mostly in the ROM.
fn short(place: u64) -> Case {
    let mut draw = Draw::new(11_000 + place);
    let sheet = draw.sheet();
    let mut state = draw.counted_state();
    let inside = |draw: &mut Draw| match draw.below(6) {
        0 => draw.below(0x800) as u16,
        1 => sheet.rom as u16 - 1,
        _ => draw.below(sheet.rom) as u16,
    };
    state.pc = inside(&mut draw);
    state.stack = [0; 3].map(|_| inside(&mut draw));
    let case = Case::new(format!("drawn {place} of {sheet:?}"))
        .sheet(sheet)
        .made_rom(draw.seed(), draw.of(&[0, NO_STOPS]))
        .made_ram(draw.seed())
        .log(draw.of(&[8, 64, 400]))
        .n(draw.below(60));
    let case = if draw.one_in(2) {
        case.schedule(&draw.records(state.cycle))
    } else {
        case.lines(&draw.resets(state.cycle))
    };
    case.state(sheet.fitted(&state))
}

/// Many cycles on a ROM that leads back.
fn lasting(place: u64) -> Case {
    let mut draw = Draw::new(12_000 + place);
    let rom = draw.of(&[256, 257, 1_000, 1_500, 1_999]);
    let sheet = Sheet {
        rom,
        ..draw.sheet()
    };
    Case::new(format!("ROM {place} of {sheet:?}"))
        .sheet(sheet)
        .made_rom(draw.seed(), LASTING)
        .made_ram(draw.seed())
        .made_schedule(20_000, draw.seed(), 12, 0)
        .resets(draw.of(&[0, 9, 40]))
        .log(65_536)
        .n(20_000)
}

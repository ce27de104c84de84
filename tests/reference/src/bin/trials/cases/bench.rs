//! "Bench cases, and what misleads".

use reference::case::Case;

const LAST_CYCLE: u64 = (1 << 48) - 1;

/// The word of X in the RAM.
const X: u16 = 95;

pub fn cases() -> Vec<Case> {
    let mut cases = timer();
    cases.extend(skips());
    cases.extend(single());
    cases.extend(sequences());
    cases.extend(limits());
    cases.extend(misleading());
    cases
}

/// STM 80 and STM BF. STM takes cycles 0 and 1, then one NOP a cycle.
fn timer() -> Vec<Case> {
    let mut cases = Vec::new();
    for cycle in [63, 64, 65, 66] {
        for n in [cycle, cycle + 1, cycle + 3] {
            cases.push(
                Case::new(format!("P: STM 80, TTM at {cycle}, {n} cycles"))
                    .rom(0, &[0x14, 0x80])
                    .rom(cycle as u16, &[0x05])
                    .n(n)
                    .ends(0),
            );
        }
    }
    for cycle in [4_032, 4_033, 4_034, 4_035] {
        // JMP 200, then field 2 is walked round.
        let at = 0x200 + (cycle - 4) % 256;
        for n in [cycle, cycle + 1] {
            cases.push(
                Case::new(format!("P: STM BF, TTM at {cycle}, {n} cycles"))
                    .rom(0, &[0x14, 0xBF, 0xA2, 0x00])
                    .rom(at as u16, &[0x05])
                    .n(n)
                    .ends(0),
            );
        }
    }
    cases
}

fn skips() -> Vec<Case> {
    let mut cases = Vec::new();
    for code in [0x17, 0x00] {
        for n in 1..=4 {
            cases.push(
                Case::new(format!("P: TC with C before {code:02X}, {n} cycles"))
                    .rom(0, &[0x04, code])
                    .with(|state| state.carry = 1)
                    .n(n)
                    .ends(0),
            );
        }
    }
    cases
}

/// Cases of one instruction.
fn single() -> Vec<Case> {
    let at = |name: &str, pc: u16, code: u8| {
        Case::new(format!("P: {name}"))
            .rom(pc, &[code])
            .with(|state| state.pc = pc)
            .n(2)
            .ends(0)
    };
    vec![
        at("NOP at 1FF leads to 100", 0x1FF, 0x00),
        at("BF calls 03C", 0x234, 0xBF),
        at("DEM in row 5 skips and stores nothing", 0, 0x1F)
            .with(|state| (state.dph, state.dpl) = (5, 3))
            .made_ram(5),
        at("XHX with DPH 5, X 9", 0, 0x4F)
            .with(|state| state.dph = 5)
            .ram(X, &[9]),
        at("RAR of 1, C=0", 0, 0x30).with(|state| state.acc = 1),
        at("ADS 9+8+1", 0, 0x09)
            .with(|state| (state.acc, state.carry) = (9, 1))
            .ram(0, &[8]),
        at("JCP C5 at 03F goes to 005", 0x03F, 0xC5),
    ]
}

fn sequences() -> Vec<Case> {
    let mut cases = Vec::new();
    for n in 1..=5 {
        cases.push(
            Case::new(format!("P: with INT set, EI then NOP, {n} cycles"))
                .rom(0, &[0x31])
                .with(|state| state.int = 1)
                .n(n)
                .ends(0),
        );
    }
    for n in [6, 7, 9, 11, 13, 15] {
        cases.push(
            Case::new(format!(
                "P: a fourth call loses the first return, {n} cycles"
            ))
            .rom(0x000, &[0xA9, 0x00, 0x00, 0x00, 0x48])
            .rom(0x100, &[0xAA, 0x10, 0x48])
            .rom(0x210, &[0xAB, 0x20, 0x48])
            .rom(0x320, &[0xB1, 0x48])
            .n(n)
            .ends(0),
        );
    }
    for n in [0, 1, 2, 3, 5, 10] {
        cases.push(
            Case::new(format!("the example of trace, {n} cycles"))
                .rom(0, &[0x1E, 0xA5, 0x93, 0x44, 0x1C])
                .log(16_384)
                .n(n),
        );
    }
    cases
}

fn limits() -> Vec<Case> {
    let near = |n: u64, number: u8| {
        Case::new(format!("P: the cycle limit less 10, {n} cycles"))
            .with(|state| state.cycle = LAST_CYCLE - 10)
            .n(n)
            .ends(number)
    };
    vec![
        Case::new("P: a schedule of 40,960 bytes")
            .made_schedule(40_960, 77, 3, 0)
            .rom(0, &[0x40, 0x44, 0x32, 0x44, 0xC0])
            .log(20_000)
            .n(9_000)
            .ends(0),
        Case::new("P: a schedule of 40,970 bytes")
            .made_schedule(40_970, 77, 3, 0)
            .n(5)
            .ends(12),
        near(9, 0),
        near(10, 0),
        near(11, 2),
    ]
}

fn misleading() -> Vec<Case> {
    let mut cases = Vec::new();
    for carry in [0, 1] {
        cases.push(
            Case::new(format!("misleading: AD with C={carry}"))
                .rom(0, &[0x08])
                .with(|state| (state.acc, state.carry) = (9, carry))
                .ram(0, &[9])
                .n(3)
                .ends(0),
        );
    }
    for (pc, program) in [(0x2FF, [0x17, 0x03, 0x04]), (0x2FE, [0x17, 0x03, 0x1E])] {
        let mut case = Case::new(format!("misleading: a skip from {pc:03X}"));
        for (place, byte) in program.into_iter().enumerate() {
            case = case.rom(0x200 | (pc + place as u16) & 0xFF, &[byte]);
        }
        cases.push(
            case.with(|state| (state.pc, state.acc) = (pc, 3))
                .n(4)
                .ends(0),
        );
    }
    for owed in 0..=3 {
        cases.push(
            Case::new(format!("misleading: {owed} cycles owed"))
                .rom(0, &[0x0D])
                .with(|state| state.owed = owed)
                .n(2)
                .ends(0),
        );
    }
    cases
}

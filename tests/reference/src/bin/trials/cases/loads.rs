//! Request R-5: "an LI (CLA too) directly after an LI is a NOP that keeps its mark. No interrupt is accepted while the
//! mark is LDI or LI". Strings of LI and of LDI, alone and mixed; entered in the middle, by calls and by states; cut by
//! other instructions and by skips; an edge of INT at every place of a string.

use reference::case::Case;

/// Codes of the programs.
const NOP: u8 = 0x00;
const TC: u8 = 0x04;
const INC: u8 = 0x0D;
const OP: u8 = 0x0E;
const TLA: u8 = 0x12;
const LDI: u8 = 0x15;
const STC: u8 = 0x1B;
const EI: u8 = 0x31;
const OE: u8 = 0x44;
const RT: u8 = 0x48;
const RTS: u8 = 0x49;
const LI: u8 = 0x90;
const CLA: u8 = 0x90;
const JMP: u8 = 0xA0;
const CAL: u8 = 0xA8;

/// The marks.
const MARKS: [u8; 5] = [0, 1, 2, 3, 4];

pub fn cases() -> Vec<Case> {
    let mut cases = strings();
    cases.extend(entered());
    cases.extend(given());
    cases.extend(edges());
    cases.extend(end_of_the_rom());
    cases
}

/// Strings, and what breaks them.
const STRINGS: [(&str, &[u8]); 22] = [
    ("LI", &[LI | 5]),
    ("two LI", &[LI | 5, LI | 9]),
    ("the same LI twice", &[LI | 5, LI | 5]),
    ("five LI", &[LI | 1, LI | 2, LI | 3, LI | 4, LI | 6]),
    ("CLA and LI", &[CLA, LI | 7]),
    ("LI and CLA", &[LI | 7, CLA]),
    ("two CLA and LI", &[CLA, CLA, LI | 7]),
    ("LI, NOP, LI", &[LI | 5, NOP, LI | 9]),
    ("LI, INC, LI, LI", &[LI | 5, INC, LI | 9, LI | 3]),
    ("LI, EI, LI", &[LI | 5, EI, LI | 9]),
    ("LI, LDI, LI", &[LI | 5, LDI, 0x34, LI | 9]),
    ("LDI", &[LDI, 0x34]),
    ("two LDI", &[LDI, 0x34, LDI, 0x47]),
    ("three LDI", &[LDI, 0x34, LDI, 0x47, LDI, 0x58]),
    ("LDI, NOP, LDI", &[LDI, 0x34, NOP, LDI, 0x47]),
    ("LDI, LI, LDI", &[LDI, 0x34, LI | 9, LDI, 0x47]),
    (
        "LDI, LI, LI, LDI, LDI",
        &[LDI, 0x34, LI | 9, LI | 2, LDI, 0x47, LDI, 0x58],
    ),
    ("STM between LI", &[LI | 5, 0x14, 0x81, LI | 9]),
    // The skipped LI isn't begun: TC ends the string, and the LI behind the skipped one loads.
    ("a skipped LI", &[STC, LI | 5, TC, LI | 9, LI | 3]),
    (
        "two skipped LI",
        &[STC, LI | 5, TC, LI | 9, TC, LI | 2, LI | 3, LI | 4],
    ),
    (
        "a skipped LDI",
        &[STC, LDI, 0x34, TC, LDI, 0x47, LDI, 0x58, LDI, 0x69],
    ),
    ("an LI of INC's skip", &[LI | 15, INC, LI | 9, LI | 3]),
];

/// Behind a string: Acc goes to E, and DPL too.
fn told(string: &[u8]) -> Vec<u8> {
    let mut program = string.to_vec();
    program.extend([OE, TLA, OE]);
    program
}

/// Each string, by every number of cycles up to its end.
fn strings() -> Vec<Case> {
    let mut cases = Vec::new();
    for (name, string) in STRINGS {
        let program = told(string);
        for n in 1..=program.len() as u64 + 4 {
            cases.push(
                Case::new(format!("{name}, {n} cycles"))
                    .rom(0, &program)
                    .n(n)
                    .ends(0),
            );
        }
    }
    cases
}

/// A table of loads is entered at each of its places: by CAL, by JMP, and by RTS, whose skip passes over one of them.
/// JMP, CAL and RTS end a string, so the first load behind them acts.
fn entered() -> Vec<Case> {
    let tables: [(&str, Vec<u8>, u16); 2] = [
        ("LI", (1..=6).map(|k| LI | k).collect(), 1),
        ("LDI", (1..=6).flat_map(|k| [LDI, 0x11 * k]).collect(), 2),
    ];
    let mut cases = Vec::new();
    for (name, table, step) in tables {
        for place in 0..6 {
            let to = 0x110 + step * place;
            let case = |how: &str| {
                Case::new(format!("{how} {place} of a table of {name}"))
                    .rom(0x110, &told(&table))
                    .n(30)
                    .ends(0)
            };
            let [high, low] = to.to_be_bytes();
            for (code, how) in [(JMP, "JMP to"), (CAL, "CAL of")] {
                // A load before the jump: the string begins anew behind it.
                cases.push(case(how).rom(0, &[LI | 15, LDI, 0x7E, code | high, low]));
            }
            cases.push(
                case("RTS to")
                    .rom(0, &[RTS])
                    .with(|state| state.stack = [to, 0, 0]),
            );
        }
    }
    cases
}

/// Every mark in the state given, at LI, CLA and LDI, with none and one cycle owed.
fn given() -> Vec<Case> {
    let loads: [(&str, &[u8]); 4] = [
        ("LI", &[LI | 9]),
        ("CLA", &[CLA]),
        ("LI and LI", &[LI | 9, LI | 6]),
        ("LDI", &[LDI, 0x47]),
    ];
    let mut cases = Vec::new();
    for (name, load) in loads {
        for mark in MARKS {
            for owed in [0, 1] {
                for flags in [0, 1] {
                    cases.push(
                        Case::new(format!(
                            "{name} with mark {mark}, owed {owed}, INT and INTE {flags}"
                        ))
                        .rom(0x123, &told(load))
                        .rom(0x03C, &[0x02, EI, RT])
                        .with(|state| (state.pc, state.acc) = (0x123, 12))
                        .with(|state| (state.mark, state.owed) = (mark, owed))
                        .with(|state| (state.int, state.inte) = (flags, flags))
                        .n(14)
                        .ends(0),
                    );
                }
            }
        }
    }
    cases
}

/// INTE is 1, and INT falls in each cycle of a string and of what stands behind it. The answer at 03C writes Acc and DPL, and
/// loads both anew, so that a string that it cut would be seen.
fn edges() -> Vec<Case> {
    let strings: [(&str, &[u8]); 12] = [
        ("LI, then NOP", &[LI | 5, NOP, NOP]),
        ("two LI, then NOP", &[LI | 5, LI | 9, NOP, NOP]),
        (
            "four LI, then OE",
            &[LI | 1, LI | 2, LI | 3, LI | 4, OE, NOP],
        ),
        ("LI and CLA, then a skip", &[STC, LI | 5, CLA, TC, NOP, NOP]),
        ("three LI, then EI", &[LI | 5, LI | 9, LI | 2, EI, NOP, NOP]),
        ("LI, EI, LI, NOP", &[LI | 5, EI, LI | 9, NOP, NOP]),
        ("LI, NOP, LI", &[LI | 5, NOP, LI | 9, NOP, NOP]),
        ("LDI, then NOP", &[LDI, 0x35, NOP, NOP]),
        (
            "three LDI, then OP",
            &[LDI, 0x35, LDI, 0x46, LDI, 0x57, OP, NOP],
        ),
        ("two LDI, then EI", &[LDI, 0x35, LDI, 0x46, EI, NOP, NOP]),
        (
            "LI and LDI in turn",
            &[LI | 5, LDI, 0x35, LI | 9, LDI, 0x46, NOP, NOP],
        ),
        (
            "two LI, two LDI, then JMP",
            &[LI | 5, LI | 9, LDI, 0x35, LDI, 0x46, JMP, 0x20],
        ),
    ];
    let mut cases = Vec::new();
    for (name, string) in strings {
        for fall in 0..string.len() as u64 + 3 {
            let case = Case::new(format!("INT falls at {fall}: {name}"))
                .rom(0, &[NOP])
                .rom(1, string)
                .rom(0x03C, &[OE, TLA, OE, LI | 12, LDI, 0x7B, EI, RT])
                .with(|state| state.inte = 1)
                .schedule(&[(fall, 0, 0, 0), (fall + 3, 0, 0, 1)])
                .log(100);
            for n in [8, 30] {
                cases.push(case.clone().n(n).ends(0));
            }
        }
    }
    cases
}

/// A load at the end of the ROM, behind an LI: LI at 7CF goes on with its string, and LDI lacks its second byte. bounds.rs has those
/// that begin at 7CF.
fn end_of_the_rom() -> Vec<Case> {
    let mut cases = Vec::new();
    for mark in MARKS {
        for (code, number) in [(LI | 9, 22), (LDI, 22)] {
            for n in [1, 2, 3] {
                let begun = if code == LDI { 1 } else { 2 };
                cases.push(
                    Case::new(format!(
                        "{code:02X} at 7CE and 7CF, mark {mark}, {n} cycles"
                    ))
                    .rom(0x7CE, &[LI | 3, code])
                    .with(|state| (state.pc, state.mark) = (0x7CE, mark))
                    .n(n)
                    .ends(if n > begun { number } else { 0 }),
                );
            }
        }
    }
    cases
}

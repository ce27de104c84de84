//! Bounds: an instruction at 7CF, with every mark in the state given, so that an LDI or an LI there is a NOP; and runs of no cycle
//! that are refused.

use reference::case::Case;

/// "ROM: 2,000 bytes, 000 to 7CF."
const LAST: u16 = 0x7CF;

/// The marks.
const MARKS: [u8; 5] = [0, 1, 2, 3, 4];

pub fn cases() -> Vec<Case> {
    let mut cases = loads();
    cases.extend(second_bytes());
    cases.extend(no_cycle());
    cases
}

/// "22 a byte above 7CF is needed (the second byte of an LDI that is a NOP counts)": LDI isn't begun with any mark; LI and CLA have
/// one byte, are begun with any mark, and the next cycle needs the byte above.
fn loads() -> Vec<Case> {
    let mut cases = Vec::new();
    for (name, code, begun) in [("LDI", 0x15, 0), ("LI", 0x99, 1), ("CLA", 0x90, 1)] {
        for mark in MARKS {
            for owed in [0, 1] {
                for n in [1, 2, 3] {
                    let name = format!("{name} at 7CF, mark {mark}, owed {owed}, {n} cycles");
                    cases.push(
                        Case::new(name)
                            .rom(LAST, &[code])
                            .with(|state| (state.pc, state.acc) = (LAST, 12))
                            .with(|state| (state.mark, state.owed) = (mark, owed))
                            .n(n)
                            .ends(if n > u64::from(owed) + begun { 22 } else { 0 }),
                    );
                }
            }
        }
    }
    cases
}

/// The other instructions of two bytes, without room in the log.
fn second_bytes() -> Vec<Case> {
    let mut cases = Vec::new();
    for code in [0x14, 0x16, 0x17, 0x1E, 0xA0, 0xA8] {
        for mark in MARKS {
            cases.push(
                Case::new(format!("{code:02X} at 7CF, begun with mark {mark}"))
                    .rom(LAST, &[code])
                    .with(|state| (state.pc, state.mark) = (LAST, mark))
                    .log(0)
                    .n(1)
                    .ends(22),
            );
        }
    }
    cases
}

/// "A run checks 21, 12, 11, 13/14, 34, 2": a run of no cycle too.
fn no_cycle() -> Vec<Case> {
    let run = |name: &str, number: u8| Case::new(format!("n 0, {name}")).n(0).ends(number);
    let mut cases = vec![
        run("a schedule of 40,970 bytes", 12).made_schedule(40_970, 19, 5, 0),
        run("a schedule of 25 bytes", 11).made_schedule(25, 19, 5, 0),
        run("INT 2", 13).schedule(&[(0, 0, 0, 2)]),
        run("the same cycle twice", 14).schedule(&[(7, 0, 0, 1), (7, 0, 0, 1)]),
    ];
    for length in [0, 1, 1_999, 2_001, 2_048, 2_100] {
        cases.push(run(&format!("a ROM of {length} bytes"), 21).rom_length(length));
    }
    cases
}

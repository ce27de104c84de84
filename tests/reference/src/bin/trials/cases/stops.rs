//! Stops: 3 with logs of every length, 22 of every kind, 23; and runs that end just before one.

use reference::case::Case;
use reference::State;

/// "ROM: 2,000 bytes, 000 to 7CF."
const LAST: u16 = 0x7CF;

pub fn cases() -> Vec<Case> {
    let mut cases = short_logs();
    cases.extend(full_logs());
    cases.extend(no_record());
    cases.extend(second_bytes());
    cases.extend(byte_at_pc());
    cases.extend(bytes_to_be_skipped());
    cases.extend(returns());
    cases.extend(no_instructions());
    cases
}

/// Programs that write: OP, SPB and RPB, OE with SEB and REB, OCD, and all of them.
const WRITERS: [(&str, &[u8]); 5] = [
    ("OP", &[0x84, 0x9A, 0x0E, 0x88, 0x0E, 0x82, 0x0E]),
    (
        "SPB and RPB",
        &[0x85, 0x71, 0x62, 0x88, 0x72, 0x63, 0x60, 0x83, 0x70],
    ),
    ("OE, SEB and REB", &[0x96, 0x44, 0x74, 0x66, 0x77, 0x00]),
    ("OCD", &[0x1E, 0x5A, 0x1E, 0xC3, 0x00]),
    (
        "all",
        &[0x99, 0x44, 0x1E, 0x78, 0x84, 0x73, 0x0E, 0x1E, 0x12],
    ),
];

fn short_logs() -> Vec<Case> {
    let mut cases = Vec::new();
    for (name, program) in WRITERS {
        for length in [0, 1, 7, 8, 9, 15, 16, 17, 23, 24, 31, 32, 39, 40] {
            let mut rom = program.to_vec();
            rom.push(0xC0);
            cases.push(
                Case::new(format!("{name} with a log of {length}"))
                    .rom(0, &rom)
                    .log(length)
                    .n(60)
                    .ends(3),
            );
        }
    }
    cases
}

fn full_logs() -> Vec<Case> {
    let program = |length: u32, n: u64| {
        Case::new(format!("OE for ever with a log of {length}, {n} cycles"))
            .rom(0, &[0x44, 0x0D, 0xC0, 0xC0])
            .log(length)
            .n(n)
    };
    vec![
        program(65_536, 100_000).ends(3),
        program(65_535, 100_000).ends(3),
        program(65_528, 100_000).ends(3),
        program(65_536, 10_000).ends(0),
        program(0, 0).ends(0),
    ]
}

/// Writes that have no effect need no room.
fn no_record() -> Vec<Case> {
    let mut cases = Vec::new();
    for (dpl, code) in [
        (0, 0x0E),
        (1, 0x0E),
        (9, 0x0E),
        (15, 0x0E),
        (0, 0x70),
        (2, 0x71),
        (3, 0x62),
        (9, 0x73),
        (15, 0x60),
        (8, 0x73),
        (8, 0x63),
    ] {
        cases.push(
            Case::new(format!("{code:02X} with DPL {dpl} has no effect"))
                .rom(0, &[code])
                .with(|state| (state.dpl, state.acc) = (dpl, 9))
                .with(|state| state.ports = [1, 2, 3, 4, 5, 6, 7])
                .log(0)
                .n(2)
                .ends(0),
        );
    }
    for (dpl, code) in [(8, 0x70), (8, 0x62), (8, 0x0E), (4, 0x73), (2, 0x0E)] {
        cases.push(
            Case::new(format!("{code:02X} with DPL {dpl} lacks 8 bytes"))
                .rom(0, &[0x00, code])
                .with(|state| state.dpl = dpl)
                .log(7)
                .n(2)
                .ends(3),
        );
    }
    cases
}

/// An instruction of two bytes at 7CF behind a NOP, with room in the log and without. The NOP leaves mark other, whatever the mark
/// before it; bounds.rs has those that begin at 7CF.
fn second_bytes() -> Vec<Case> {
    let mut cases = Vec::new();
    for code in [0x14, 0x15, 0x16, 0x17, 0x1E, 0xA0, 0xA8] {
        for (mark, log) in [(0, 64), (1, 0)] {
            cases.push(
                Case::new(format!("{code:02X} at 7CF behind a NOP, log {log}"))
                    .rom(LAST - 1, &[0x00, code])
                    .with(|state| (state.pc, state.mark) = (LAST - 1, mark))
                    .log(log)
                    .n(5)
                    .ends(22),
            );
        }
    }
    cases
}

/// PC comes above 7CF by counting up, by a jump, a call, a return.
fn byte_at_pc() -> Vec<Case> {
    let at = |name: &str, pc: u16, bytes: &[u8]| {
        Case::new(name)
            .rom(pc, bytes)
            .with(|state| state.pc = pc)
            .n(9)
            .ends(22)
    };
    vec![
        at("NOPs to 7D0", 0x7C9, &[]),
        at("JMP 7D0", 0x123, &[0xA7, 0xD0]),
        at("CAL 7FF", 0x123, &[0xAF, 0xFF]),
        at("JCP from 7C5 to 7D0", 0x7C5, &[0xD0]),
        at("JPA from 7C5 to 7FC", 0x7C5, &[0x9F, 0x41]),
        at("RT to 7D0", 0x123, &[0x48]).with(|state| state.stack = [0x7D0, 1, 2]),
        at(
            "JMP to 7CE, whose second byte lies in the ROM",
            0x123,
            &[0xA7, 0xCE],
        )
        .rom(0x7CE, &[0xA0, 0x10])
        .ends(0),
        at("n ends just before", 0x7CC, &[]).n(4).ends(0),
        at("one more", 0x7CC, &[]).n(5),
    ]
}

/// A change of the start state.
type Change = fn(&mut State);

/// An instruction at 7CF that skips, and one that doesn't; CI and CLI at 7CE.
fn bytes_to_be_skipped() -> Vec<Case> {
    let nothing: Change = |_| {};
    let parts: [(&str, &[u8], Change); 14] = [
        ("TC with C", &[0x04], |s| s.carry = 1),
        ("TC without C", &[0x04], nothing),
        ("TTM with TM", &[0x05], |s| s.tm = 1),
        ("INC of 15", &[0x0D], |s| s.acc = 15),
        ("INC of 14", &[0x0D], |s| s.acc = 14),
        ("DEC of 0", &[0x0F], nothing),
        ("DEM of 0", &[0x1F], nothing),
        ("XMI of DPL 15", &[0x3D], |s| s.dpl = 15),
        ("FBF of 0", &[0x22], nothing),
        ("FBT of 0", &[0x5D], nothing),
        ("ADS of 15 and C", &[0x09], |s| (s.acc, s.carry) = (15, 1)),
        ("CI of Acc", &[0x17, 0x30], nothing),
        ("CI of another", &[0x17, 0x31], nothing),
        ("CLI of DPL", &[0x16, 0x77], |s| s.dpl = 7),
    ];
    let mut cases = Vec::new();
    for (name, program, change) in parts {
        let pc = LAST + 1 - program.len() as u16;
        cases.push(
            Case::new(format!("{name} at {pc:03X}"))
                .rom(pc, program)
                .with(|state| state.pc = pc)
                .with(change)
                .n(4)
                .ends(22),
        );
    }
    cases.extend(skips_by_lines());
    cases
}

/// Skips that hang on the lines of the stopped cycle.
fn skips_by_lines() -> Vec<Case> {
    let mut cases = Vec::new();
    for (name, code) in [("TIT", 0x03), ("TPA", 0x54), ("TPB", 0x52)] {
        for (ab, int) in [(0x00, 1), (0x50, 0), (0x50, 1), (0x00, 0)] {
            cases.push(
                Case::new(format!("{name} at 7CF, A {ab:02X}, INT {int}"))
                    .rom(LAST, &[code])
                    .with(|state| state.pc = LAST)
                    .schedule(&[(0, ab, 0, int)])
                    .n(3)
                    .ends(22),
            );
        }
    }
    cases
}

/// RTS needs the byte at the popped address; RT doesn't.
fn returns() -> Vec<Case> {
    let mut cases = Vec::new();
    for (code, address, n, number) in [
        (0x49, 0x7D0, 5, 22),
        (0x49, 0x7FF, 5, 22),
        (0x49, 0x7CF, 3, 0),
        (0x49, 0x7CF, 4, 22),
        (0x49, 0x0FF, 6, 0),
        (0x48, 0x7D0, 2, 0),
        (0x48, 0x7D0, 3, 22),
        (0x48, 0x7CF, 3, 0),
    ] {
        for passed in [0x00, 0x1E, 0x45] {
            let name = format!("{code:02X} to {address:03X}, over {passed:02X}, {n} cycles");
            let mut case = Case::new(name)
                .rom(0x321, &[code])
                .with(|state| (state.pc, state.stack) = (0x321, [address, 0x111, 0x222]))
                .n(n);
            if address <= LAST {
                case = case.rom(address, &[passed]);
            } else {
                case = case.ends(number);
            }
            cases.push(case);
        }
    }
    cases
}

/// 1C and 45: due, passed over, one cycle after the end, with no log, at 7CF, after an acceptance.
fn no_instructions() -> Vec<Case> {
    let mut cases = Vec::new();
    for code in [0x1C, 0x45] {
        let at = |name: &str, pc: u16, bytes: &[u8]| {
            Case::new(format!("{code:02X} {name}"))
                .rom(pc, bytes)
                .with(|state| state.pc = pc)
                .n(6)
                .ends(23)
        };
        cases.extend([
            at("at once", 0, &[code]),
            at("after two", 0, &[0x00, 0x40, code]),
            at("passed over", 0, &[0x04, code, 0x00])
                .with(|s| s.carry = 1)
                .ends(0),
            at("passed over, and the next too", 0, &[0x04, code, code]).with(|s| s.carry = 1),
            at("one cycle after n", 0, &[0x00, 0x40, code]).n(3).ends(0),
            at("with n 0", 0, &[code]).n(0).ends(0),
            at("with no log", 0, &[code]).log(0),
            at("at 7CF", LAST, &[code]),
            at("with a fall of INT", 0, &[code]).schedule(&[(0, 0, 0, 0)]),
            at("after an acceptance", 0, &[code])
                .with(|s| (s.int, s.inte) = (1, 1))
                .rom(0x3C, &[0x48]),
            at("owed three cycles", 0, &[code]).with(|s| s.owed = 3),
        ]);
    }
    cases
}

//! Request R-2: "On C and D a bit now reads 1 if the line or the latch is 1." IP and TPB on C and D with
//! every pair of line and latch, on every other port with its latch set, and beside IA and TPA; strobes
//! that are written and read in turn; TPB at 7CF.

use reference::case::Case;

/// Codes of the programs.
const OP: u8 = 0x0E;
const OCD: u8 = 0x1E;
const IP: u8 = 0x32;
const IA: u8 = 0x40;
const OE: u8 = 0x44;
const TPB: u8 = 0x50;
const TPA: u8 = 0x54;
const SMB: u8 = 0x78;
const S: u8 = 0x02;
const LM: u8 = 0x38;
const LDZ: u8 = 0x80;
const LI: u8 = 0x90;
const JCP: u8 = 0xC0;

/// "ROM: 2,000 bytes, 000 to 7CF."
const LAST: u16 = 0x7CF;

/// Every latch set.
const SET: [u8; 7] = [15, 15, 15, 15, 15, 15, 7];

pub fn cases() -> Vec<Case> {
    let mut cases = pairs();
    cases.extend(every_port());
    cases.extend(port_a());
    cases.extend(strobes());
    cases.extend(end_of_the_rom());
    cases
}

/// Reads a port by IP and by TPB of each bit, and writes to E what IP reads, and then the bits that TPB
/// doesn't skip on. SMB behind TPB takes the cycle that its skip would cost, so this takes 17 cycles.
fn reads(port: u8) -> Vec<u8> {
    let mut program = vec![LDZ | port, IP, OE, LI, S];
    for b in 0..4 {
        program.extend([TPB | b, SMB | b]);
    }
    program.extend([LM, OE]);
    program
}

/// OCD sets both latches. Then C and D are read 16 times, with other lines at each time, so that a port's
/// latch meets all 16 values of its lines.
fn pairs() -> Vec<Case> {
    let mut cases = Vec::new();
    for latch in 0..16 {
        let mut program = vec![OCD, (15 - latch) << 4 | latch];
        program.extend(reads(2));
        program.extend(reads(3));
        program.push(JCP | 2);
        let turn = 17 + 17 + 1;
        let records: Vec<(u64, u8, u8, u8)> = (0..16)
            .map(|k| (2 + turn * u64::from(k), 0x96, k << 4 | 5 * k % 16, 1))
            .collect();
        cases.push(
            Case::new(format!("C and D with latches {latch} and {}", 15 - latch))
                .rom(0, &program)
                .schedule(&records)
                .log(2_048)
                .n(2 + 16 * turn)
                .ends(0),
        );
    }
    cases
}

/// Each value of DPL, with every latch set, and lines that are low on C and D or on A and B.
fn every_port() -> Vec<Case> {
    let mut cases = Vec::new();
    for dpl in 0..16 {
        for (ab, cd) in [(0xA5, 0x00), (0x00, 0x3C)] {
            cases.push(
                Case::new(format!("DPL {dpl} read, lines {ab:02X}{cd:02X}"))
                    .rom(0, &reads(dpl))
                    .with(|state| state.ports = [9, 6, 15, 15, 15, 15, 7])
                    .schedule(&[(0, ab, cd, 1)])
                    .n(17)
                    .ends(0),
            );
        }
    }
    cases
}

/// IA and TPA read port A alone, whatever DPL names.
fn port_a() -> Vec<Case> {
    let mut cases = Vec::new();
    for dpl in [0, 2, 3, 4] {
        for a in [0x0, 0x6, 0x9] {
            let mut program = vec![IA, OE];
            for b in 0..4 {
                program.extend([TPA | b, SMB | b]);
            }
            program.extend([LM, OE]);
            cases.push(
                Case::new(format!("IA and TPA with DPL {dpl}, A {a:X}, latches set"))
                    .rom(0, &program)
                    .with(|state| (state.dpl, state.ports) = (dpl, SET))
                    .schedule(&[(0, a << 4, 0xFF, 1)])
                    .n(19)
                    .ends(0),
            );
        }
    }
    cases
}

/// A strobe walks through the bits of a port, and each is read back with what the keys answer. SPB and RPB
/// have no effect on C and D, so what they would change isn't read.
fn strobes() -> Vec<Case> {
    let mut cases = Vec::new();
    for (name, port) in [("C", 2), ("D", 3)] {
        for keys in [0x0, 0x4, 0x9, 0xF] {
            let mut program = vec![LDZ | port];
            for b in 0..4 {
                program.extend([
                    LI | 1 << b,
                    OP,
                    IP,
                    OE,
                    0x70 | (b + 1) % 4,
                    0x60 | b,
                    IP,
                    OE,
                ]);
            }
            program.push(JCP);
            let cd = if port == 2 { keys << 4 } else { keys };
            cases.push(
                Case::new(format!("strobes on {name}, keys {keys:X}"))
                    .rom(0, &program)
                    .schedule(&[(15, 0, cd, 1), (60, 0, 0, 1), (70, 0xFF, 0xFF - cd, 1)])
                    .log(400)
                    .n(100)
                    .ends(0),
            );
        }
    }
    cases
}

/// TPB at 7CF: it skips, and so needs a byte above the ROM, because of the line, of the latch or of both;
/// where neither is 1, and on E, it is begun.
fn end_of_the_rom() -> Vec<Case> {
    let mut cases = Vec::new();
    for (dpl, line, latch, number) in [
        (2, 0, 0, 0),
        (2, 0, 1, 22),
        (2, 1, 0, 22),
        (2, 1, 1, 22),
        (3, 0, 0, 0),
        (3, 0, 1, 22),
        (3, 1, 0, 22),
        (3, 1, 1, 22),
        (4, 0, 1, 0),
        (8, 0, 1, 0),
    ] {
        // "I of 3 bits".
        for b in 0..if dpl == 8 { 3 } else { 4 } {
            let bit = |value: u8| value << b;
            let cd = if dpl == 2 { bit(line) << 4 } else { bit(line) };
            cases.push(
                Case::new(format!(
                    "TPB {b} at 7CF, DPL {dpl}, line {line}, latch {latch}"
                ))
                .rom(LAST, &[TPB | b])
                .with(|state| (state.pc, state.dpl) = (LAST, dpl))
                .with(|state| state.ports[usize::from(dpl) - 2] = bit(latch))
                .schedule(&[(0, 0, cd, 1)])
                .n(1)
                .ends(number),
            );
        }
    }
    cases
}

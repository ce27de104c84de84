//! The instructions: their mnemonics, bytes and base cycles, and what each does in its first cycle.

use crate::log::Log;
use crate::machine::{mark, word, State};
use crate::numbers::{ABOVE_ROM, NO_INSTRUCTION};
use crate::schedule::Lines;
use crate::sheet::Chip;

/// The instructions, in the order of the document's lists.
#[rustfmt::skip]
#[derive(Clone, Copy, PartialEq, Eq, Debug)]
pub(crate) enum Mnemonic {
    /// "1C and 45 are no instructions".
    None,
    // One cycle.
    NOP, DI, S, TIT, TC, TTM, DAA, TAL, AD, ADS, DAS, CLC, CM, INC, DEC, OP, CMA, CIA, TLA, DED, EXL, ADC, XC, STC,
    INM, DEM, TAB, XM, XMD, RAR, EI, IP, IND, CMB, LM, XMI, TPB, TMB, RPB, SPB, RMB, SMB, LDZ, LI, CZP, JCP,
    // Two cycles.
    FBF, FBT, IA, JPA, TAZ, TAW, OE, TLY, THX, RT, RTS, XAZ, XAW, XLS, XHR, XLY, XHX, TPA, REB, SEB, RFB, SFB,
    // Two bytes, two cycles.
    STM, LDI, CLI, CI, OCD, JMP, CAL,
}
use Mnemonic::*;

#[rustfmt::skip]
const fn mnemonic(code: u8) -> Mnemonic {
    match code {
        0x00 => NOP, 0x01 => DI, 0x02 => S, 0x03 => TIT, 0x04 => TC, 0x05 => TTM, 0x06 => DAA, 0x07 => TAL,
        0x08 => AD, 0x09 => ADS, 0x0A => DAS, 0x0B => CLC, 0x0C => CM, 0x0D => INC, 0x0E => OP, 0x0F => DEC,
        0x10 => CMA, 0x11 => CIA, 0x12 => TLA, 0x13 => DED, 0x14 => STM, 0x15 => LDI, 0x16 => CLI, 0x17 => CI,
        0x18 => EXL, 0x19 => ADC, 0x1A => XC, 0x1B => STC, 0x1C => None, 0x1D => INM, 0x1E => OCD, 0x1F => DEM,
        0x20..=0x23 => FBF, 0x24..=0x27 => TAB, 0x28..=0x2B => XM, 0x2C..=0x2F => XMD,
        0x30 => RAR, 0x31 => EI, 0x32 => IP, 0x33 => IND, 0x34..=0x37 => CMB, 0x38..=0x3B => LM, 0x3C..=0x3F => XMI,
        0x40 => IA, 0x41 => JPA, 0x42 => TAZ, 0x43 => TAW, 0x44 => OE, 0x45 => None, 0x46 => TLY, 0x47 => THX,
        0x48 => RT, 0x49 => RTS, 0x4A => XAZ, 0x4B => XAW, 0x4C => XLS, 0x4D => XHR, 0x4E => XLY, 0x4F => XHX,
        0x50..=0x53 => TPB, 0x54..=0x57 => TPA, 0x58..=0x5B => TMB, 0x5C..=0x5F => FBT,
        0x60..=0x63 => RPB, 0x64..=0x67 => REB, 0x68..=0x6B => RMB, 0x6C..=0x6F => RFB,
        0x70..=0x73 => SPB, 0x74..=0x77 => SEB, 0x78..=0x7B => SMB, 0x7C..=0x7F => SFB,
        0x80..=0x8F => LDZ, 0x90..=0x9F => LI, 0xA0..=0xA7 => JMP, 0xA8..=0xAF => CAL, 0xB0..=0xBF => CZP,
        0xC0..=0xFF => JCP,
    }
}

/// What a code tells of its instruction.
#[derive(Clone, Copy, PartialEq, Eq, Debug)]
pub(crate) struct Form {
    pub mnemonic: Mnemonic,
    pub bytes: u8,
    /// Base cycles.
    pub cycles: u8,
    /// "its cycles less 1"
    pub owed: u8,
}

/// "One 256-entry table of bytes and base cycles serves decoding and skipping."
pub(crate) static FORMS: [Form; 256] = forms();

const fn forms() -> [Form; 256] {
    let mut table = [form(0); 256];
    let mut code = 0;
    while code < 256 {
        table[code] = form(code as u8);
        code += 1;
    }
    table
}

#[rustfmt::skip]
const fn form(code: u8) -> Form {
    let mnemonic = mnemonic(code);
    let (bytes, cycles) = match mnemonic {
        // "a skip passes over either as one byte, and their base cycles read 0".
        None => (1, 0),
        FBF | FBT | IA | JPA | TAZ | TAW | OE | TLY | THX | RT | RTS | XAZ | XAW | XLS | XHR | XLY | XHX | TPA | REB
        | SEB | RFB | SFB => (1, 2),
        STM | LDI | CLI | CI | OCD | JMP | CAL => (2, 2),
        _ => (1, 1),
    };
    Form { mnemonic, bytes, cycles, owed: cycles.saturating_sub(1) }
}

/// The ports, as DPL names them.
const C: u8 = 2;
const D: u8 = 3;
const E: u8 = 4;
const I: u8 = 8;

/// Carries out the instruction at PC, a second byte and the address after it being given, and
/// tells whether it skips: PC is then where the skip begins. With a stop, 22, 23 or 3, nothing has
/// changed.
#[inline(always)]
pub(crate) fn execute(
    s: &mut State,
    code: u8,
    second: u8,
    after: u16,
    lines: &Lines,
    log: &mut Log,
    chip: &Chip,
) -> Result<bool, u8> {
    // "b is a 2-bit bit number, k a 4-bit and m a 2-bit operand."
    let b = || code & 3;
    let m = || code & 3;
    let k = || code & 15;
    let mut next = after;
    let mut kind = mark::OTHER;
    let mut skip = false;

    match FORMS[usize::from(code)].mnemonic {
        // One cycle.
        NOP => {}
        DI => s.inte = 0,
        S => s.set_m(s.acc, chip),
        TIT => {
            skip = s.int == 1;
            s.int = 0;
        }
        TC => skip = s.carry == 1,
        TTM => skip = s.tm == 1,
        DAA => s.acc = (s.acc + 6) & 15,
        TAL => s.dpl = s.acc,
        AD => {
            // "skip on carry, C kept".
            let sum = s.acc + s.m(chip);
            s.acc = sum & 15;
            skip = sum > 15;
        }
        ADS => {
            add_with_carry(s, chip);
            skip = s.carry == 1;
        }
        DAS => s.acc = (s.acc + 10) & 15,
        CLC => s.carry = 0,
        CM => skip = s.acc == s.m(chip),
        INC => {
            s.acc = (s.acc + 1) & 15;
            skip = s.acc == 0;
        }
        DEC => {
            s.acc = (s.acc + 15) & 15;
            skip = s.acc == 15;
        }
        OP => {
            // "writes C to I".
            if (C..=I).contains(&s.dpl) {
                log.room(1)?;
                write_port(s, s.dpl, s.acc, log);
            }
        }
        CMA => s.acc = 15 - s.acc,
        CIA => s.acc = (16 - s.acc) & 15,
        TLA => s.acc = s.dpl,
        DED => skip = dec_dpl(s),
        EXL => s.acc ^= s.m(chip),
        ADC => add_with_carry(s, chip),
        XC => std::mem::swap(&mut s.carry, &mut s.saved),
        STC => s.carry = 1,
        INM => {
            // "a skip looks at the computed value".
            let value = (s.m(chip) + 1) & 15;
            s.set_m(value, chip);
            skip = value == 0;
        }
        DEM => {
            let value = (s.m(chip) + 15) & 15;
            s.set_m(value, chip);
            skip = value == 15;
        }
        TAB => skip = has_bit(s.acc, b()),
        XM => {
            swap_m(s, chip);
            s.dph ^= m();
        }
        XMD => {
            swap_m(s, chip);
            s.dph ^= m();
            skip = dec_dpl(s);
        }
        RAR => {
            // "right through C".
            let out = s.acc & 1;
            s.acc = s.carry << 3 | s.acc >> 1;
            s.carry = out;
        }
        EI => {
            s.inte = 1;
            kind = mark::EI;
        }
        IP => s.acc = read_port(s, lines),
        IND => skip = inc_dpl(s),
        CMB => skip = has_bit(s.acc, b()) == has_bit(s.m(chip), b()),
        LM => {
            s.acc = s.m(chip);
            s.dph ^= m();
        }
        XMI => {
            swap_m(s, chip);
            s.dph ^= m();
            skip = inc_dpl(s);
        }
        TPB => skip = has_bit(read_port(s, lines), b()),
        TMB => skip = has_bit(s.m(chip), b()),
        RPB => {
            if has_port_bit(s.dpl, b()) {
                log.room(1)?;
                write_port(s, s.dpl, without_bit(latch(s, s.dpl), b()), log);
            }
        }
        SPB => {
            if has_port_bit(s.dpl, b()) {
                log.room(1)?;
                write_port(s, s.dpl, with_bit(latch(s, s.dpl), b()), log);
            }
        }
        RMB => s.set_m(without_bit(s.m(chip), b()), chip),
        SMB => s.set_m(with_bit(s.m(chip), b()), chip),
        LDZ => {
            // "DP=k".
            s.dph = 0;
            s.dpl = k();
        }
        LI => {
            // "directly after an LI is a NOP that keeps its mark".
            if s.mark != mark::LI {
                s.acc = k();
            }
            kind = mark::LI;
        }
        CZP => {
            // "call 4 times k".
            s.push(after, chip);
            next = u16::from(k()) << 2;
        }
        JCP => next = in_page(s.pc, code & 63),

        // Two cycles.
        FBF => skip = !has_bit(s.ram[word::FLAG], b()),
        FBT => skip = has_bit(s.ram[word::FLAG], b()),
        IA => s.acc = lines.ports[0],
        JPA => next = in_page(s.pc, s.acc << 2),
        TAZ => s.ram[word::Z] = s.acc,
        TAW => s.ram[word::W] = s.acc,
        OE => {
            log.room(1)?;
            write_port(s, E, s.acc, log);
        }
        TLY => s.ram[word::Y] = s.dpl,
        THX => s.ram[word::X] = s.dph,
        RT => next = s.pop(chip),
        RTS => {
            // "then always a skip", which begins in the ROM.
            if s.stack[0] >= chip.rom {
                return Err(ABOVE_ROM);
            }
            next = s.pop(chip);
            skip = true;
        }
        XAZ => std::mem::swap(&mut s.acc, &mut s.ram[word::Z]),
        XAW => std::mem::swap(&mut s.acc, &mut s.ram[word::W]),
        XLS => std::mem::swap(&mut s.dpl, &mut s.ram[word::S]),
        XHR => swap_dph(s, word::R),
        XLY => std::mem::swap(&mut s.dpl, &mut s.ram[word::Y]),
        XHX => swap_dph(s, word::X),
        TPA => skip = has_bit(lines.ports[0], b()),
        REB => {
            log.room(1)?;
            write_port(s, E, without_bit(latch(s, E), b()), log);
        }
        SEB => {
            log.room(1)?;
            write_port(s, E, with_bit(latch(s, E), b()), log);
        }
        RFB => s.ram[word::FLAG] = without_bit(s.ram[word::FLAG], b()),
        SFB => s.ram[word::FLAG] = with_bit(s.ram[word::FLAG], b()),

        // Two bytes, two cycles.
        STM => {
            s.start_timer(second & 63);
            kind = mark::STM;
        }
        LDI => {
            // "directly after mark LDI a NOP of two cycles that keeps the mark".
            if s.mark != mark::LDI {
                s.dph = second >> 4 & 7;
                s.dpl = second & 15;
            }
            kind = mark::LDI;
        }
        CLI => skip = s.dpl == second & 15,
        CI => skip = s.acc == second & 15,
        OCD => {
            // "D=high half, C=low"; it "appends C, then D".
            log.room(2)?;
            write_port(s, C, second & 15, log);
            write_port(s, D, second >> 4, log);
        }
        JMP => next = far(code, second),
        CAL => {
            s.push(after, chip);
            next = far(code, second);
        }

        None => return Err(NO_INSTRUCTION),
    }

    s.pc = next;
    s.mark = kind;
    Ok(skip)
}

/// "Acc+M+C into Acc and C".
#[inline(always)]
fn add_with_carry(s: &mut State, chip: &Chip) {
    let sum = s.acc + s.m(chip) + s.carry;
    s.acc = sum & 15;
    s.carry = sum >> 4;
}

/// "inc DPL": skips if DPL becomes 0.
#[inline(always)]
fn inc_dpl(s: &mut State) -> bool {
    s.dpl = (s.dpl + 1) & 15;
    s.dpl == 0
}

/// "dec DPL": skips if DPL becomes 15.
#[inline(always)]
fn dec_dpl(s: &mut State) -> bool {
    s.dpl = (s.dpl + 15) & 15;
    s.dpl == 15
}

/// "swap Acc, M"
#[inline(always)]
fn swap_m(s: &mut State, chip: &Chip) {
    let m = s.m(chip);
    s.set_m(s.acc, chip);
    s.acc = m;
}

/// "a 3-bit DPH is stored with bit 3 clear, and takes the low 3 bits"
#[inline(always)]
fn swap_dph(s: &mut State, word: usize) {
    let stored = s.ram[word];
    s.ram[word] = s.dph;
    s.dph = stored & 7;
}

#[inline(always)]
fn has_bit(value: u8, bit: u8) -> bool {
    value >> bit & 1 == 1
}

#[inline(always)]
fn with_bit(value: u8, bit: u8) -> u8 {
    value | 1 << bit
}

#[inline(always)]
fn without_bit(value: u8, bit: u8) -> u8 {
    value & !(1 << bit)
}

/// "JCP and JPA stay in the page that holds the instruction."
#[inline(always)]
pub(crate) fn in_page(at: u16, address: u8) -> u16 {
    at & 0x7C0 | u16::from(address)
}

/// JMP and CAL: "3 bits and the second byte".
#[inline(always)]
pub(crate) fn far(code: u8, second: u8) -> u16 {
    u16::from(code & 7) << 8 | u16::from(second)
}

/// What the port that DPL names reads: "IP and TPB read lines A to D, else 0", amended by R-2: "On C
/// and D a bit now reads 1 if the line or the latch is 1."
#[inline(always)]
fn read_port(s: &State, lines: &Lines) -> u8 {
    let line = lines.named(s.dpl);
    match s.dpl {
        C | D => line | latch(s, s.dpl),
        _ => line,
    }
}

/// "SPB and RPB E to I; anything else, and bit 3 of I, has no effect."
#[inline(always)]
fn has_port_bit(port: u8, bit: u8) -> bool {
    (E..=I).contains(&port) && !(port == I && bit == 3)
}

#[inline(always)]
fn latch(s: &State, port: u8) -> u8 {
    s.ports[usize::from(port - C)]
}

/// Writes a latch, "I of 3 bits", and appends "the whole latch after the write".
#[inline(always)]
fn write_port(s: &mut State, port: u8, value: u8, log: &mut Log) {
    let value = if port == I { value & 7 } else { value };
    s.ports[usize::from(port - C)] = value;
    log.append(s.cycle, port, value);
}

#[cfg(test)]
mod tests {
    use super::*;

    /// The codes of single instructions and of those with 2, 3 and 4 operand bits.
    fn codes(single: &[u8], bits_2: &[u8], bits_3: &[u8], bits_4: &[u8]) -> Vec<u8> {
        let mut all = Vec::new();
        for (firsts, count) in [(single, 1), (bits_2, 4), (bits_3, 8), (bits_4, 16)] {
            for first in firsts {
                all.extend((0..count).map(|operand| first + operand));
            }
        }
        all
    }

    /// Every code with its bytes and cycles, as the document's three lists name it.
    fn listed() -> Vec<(u8, u8, u8)> {
        let one_cycle = codes(
            &[
                0x00, 0x01, 0x02, 0x03, 0x04, 0x05, 0x06, 0x07, 0x08, 0x09, 0x0A, 0x0B, 0x0C, 0x0D,
                0x0F, 0x0E, 0x10, 0x11, 0x12, 0x13, 0x18, 0x19, 0x1A, 0x1B, 0x1D, 0x1F, 0x30, 0x31,
                0x32, 0x33,
            ],
            &[
                0x24, 0x28, 0x2C, 0x34, 0x38, 0x3C, 0x50, 0x58, 0x60, 0x70, 0x68, 0x78,
            ],
            &[],
            &[0x80, 0x90, 0xB0, 0xC0, 0xD0, 0xE0, 0xF0],
        );
        let two_cycles = codes(
            &[
                0x40, 0x41, 0x42, 0x43, 0x44, 0x46, 0x47, 0x48, 0x49, 0x4A, 0x4B, 0x4C, 0x4D, 0x4E,
                0x4F,
            ],
            &[0x20, 0x5C, 0x54, 0x64, 0x74, 0x6C, 0x7C],
            &[],
            &[],
        );
        let two_bytes = codes(&[0x14, 0x15, 0x16, 0x17, 0x1E], &[], &[0xA0, 0xA8], &[]);
        let mut all = vec![(0x1C, 1, 0), (0x45, 1, 0)];
        all.extend(one_cycle.iter().map(|&code| (code, 1, 1)));
        all.extend(two_cycles.iter().map(|&code| (code, 1, 2)));
        all.extend(two_bytes.iter().map(|&code| (code, 2, 2)));
        all
    }

    #[test]
    fn the_table_is_the_list_of_instructions() {
        let mut all = listed();
        all.sort_unstable();
        assert_eq!(all.len(), 256);
        for (code, (listed, bytes, cycles)) in (0..=255).zip(all) {
            assert_eq!(listed, code);
            let form = FORMS[usize::from(code)];
            assert_eq!((form.bytes, form.cycles), (bytes, cycles));
            assert_eq!(form.owed, cycles.max(1) - 1);
        }
    }
}

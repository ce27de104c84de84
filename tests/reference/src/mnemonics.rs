//! NEC's mnemonics, as document 01 names the codes, with their operands: for people who read a ROM.

use crate::instructions::{far, in_page};

/// An instruction at an address. Its second byte is looked at where it has one; where that byte is
/// wanting, the operand is left out.
pub(crate) fn instruction(at: u16, code: u8, second: Option<u8>) -> String {
    let name = mnemonic(code);
    match operand(at, code, second) {
        Some(operand) => format!("{name:<3} {operand}"),
        None => String::from(name),
    }
}

fn mnemonic(code: u8) -> &'static str {
    let column = usize::from(code & 15);
    let quarter = column / 4;
    match code >> 4 {
        0 => [
            "NOP", "DI", "S", "TIT", "TC", "TTM", "DAA", "TAL", "AD", "ADS", "DAS", "CLC", "CM",
            "INC", "OP", "DEC",
        ][column],
        1 => [
            "CMA", "CIA", "TLA", "DED", "STM", "LDI", "CLI", "CI", "EXL", "ADC", "XC", "STC",
            "byte", "INM", "OCD", "DEM",
        ][column],
        2 => ["FBF", "TAB", "XM", "XMD"][quarter],
        3 if quarter == 0 => ["RAR", "EI", "IP", "IND"][column],
        3 => ["", "CMB", "LM", "XMI"][quarter],
        4 => [
            "IA", "JPA", "TAZ", "TAW", "OE", "byte", "TLY", "THX", "RT", "RTS", "XAZ", "XAW",
            "XLS", "XHR", "XLY", "XHX",
        ][column],
        5 => ["TPB", "TPA", "TMB", "FBT"][quarter],
        6 => ["RPB", "REB", "RMB", "RFB"][quarter],
        7 => ["SPB", "SEB", "SMB", "SFB"][quarter],
        8 => "LDZ",
        9 => "LI",
        10 => ["JMP", "JMP", "CAL", "CAL"][quarter],
        11 => "CZP",
        _ => "JCP",
    }
}

/// Hexadecimal and whole, so that no two codes have the same text: one digit for a bit number, m or k, two for a second
/// byte, also where the chip looks at some of its bits only, three for an address. For a jump or a call it is where that
/// leads; of a code that is no instruction, the code.
fn operand(at: u16, code: u8, second: Option<u8>) -> Option<String> {
    let text = match code {
        0x14..=0x17 | 0x1E => format!("{:02X}", second?),
        0x1C | 0x45 => format!("{code:02X}"),
        0x20..=0x2F | 0x34..=0x3F | 0x50..=0x7F => (code & 3).to_string(),
        0x80..=0x9F => format!("{:X}", code & 15),
        0xA0..=0xAF => format!("{:03X}", far(code, second?)),
        0xB0..=0xBF => format!("{:03X}", u16::from(code & 15) << 2),
        0xC0..=0xFF => format!("{:03X}", in_page(at, code & 63)),
        _ => return None,
    };
    Some(text)
}

#[cfg(test)]
mod tests {
    use super::*;
    use crate::instructions::FORMS;

    /// Document 01's lists: a code, or the first of those that differ in their operand bits.
    const LISTED: [(u8, u8, &str); 75] = [
        (0x00, 1, "NOP"),
        (0x01, 1, "DI"),
        (0x02, 1, "S"),
        (0x03, 1, "TIT"),
        (0x04, 1, "TC"),
        (0x05, 1, "TTM"),
        (0x06, 1, "DAA"),
        (0x07, 1, "TAL"),
        (0x08, 1, "AD"),
        (0x09, 1, "ADS"),
        (0x0A, 1, "DAS"),
        (0x0B, 1, "CLC"),
        (0x0C, 1, "CM"),
        (0x0D, 1, "INC"),
        (0x0F, 1, "DEC"),
        (0x0E, 1, "OP"),
        (0x10, 1, "CMA"),
        (0x11, 1, "CIA"),
        (0x12, 1, "TLA"),
        (0x13, 1, "DED"),
        (0x18, 1, "EXL"),
        (0x19, 1, "ADC"),
        (0x1A, 1, "XC"),
        (0x1B, 1, "STC"),
        (0x1D, 1, "INM"),
        (0x1F, 1, "DEM"),
        (0x24, 4, "TAB"),
        (0x28, 4, "XM"),
        (0x2C, 4, "XMD"),
        (0x30, 1, "RAR"),
        (0x31, 1, "EI"),
        (0x32, 1, "IP"),
        (0x33, 1, "IND"),
        (0x34, 4, "CMB"),
        (0x38, 4, "LM"),
        (0x3C, 4, "XMI"),
        (0x50, 4, "TPB"),
        (0x58, 4, "TMB"),
        (0x60, 4, "RPB"),
        (0x70, 4, "SPB"),
        (0x68, 4, "RMB"),
        (0x78, 4, "SMB"),
        (0x80, 16, "LDZ"),
        (0x90, 16, "LI"),
        (0xB0, 16, "CZP"),
        (0xC0, 64, "JCP"),
        (0x20, 4, "FBF"),
        (0x5C, 4, "FBT"),
        (0x40, 1, "IA"),
        (0x41, 1, "JPA"),
        (0x42, 1, "TAZ"),
        (0x43, 1, "TAW"),
        (0x44, 1, "OE"),
        (0x46, 1, "TLY"),
        (0x47, 1, "THX"),
        (0x48, 1, "RT"),
        (0x49, 1, "RTS"),
        (0x4A, 1, "XAZ"),
        (0x4B, 1, "XAW"),
        (0x4C, 1, "XLS"),
        (0x4D, 1, "XHR"),
        (0x4E, 1, "XLY"),
        (0x4F, 1, "XHX"),
        (0x54, 4, "TPA"),
        (0x64, 4, "REB"),
        (0x74, 4, "SEB"),
        (0x6C, 4, "RFB"),
        (0x7C, 4, "SFB"),
        (0x14, 1, "STM"),
        (0x15, 1, "LDI"),
        (0x16, 1, "CLI"),
        (0x17, 1, "CI"),
        (0x1E, 1, "OCD"),
        (0xA0, 8, "JMP"),
        (0xA8, 8, "CAL"),
    ];

    #[test]
    fn every_code_has_the_name_of_the_documents_lists() {
        let mut names = [""; 256];
        for (first, count, name) in LISTED {
            for code in first..=first + (count - 1) {
                assert_eq!(names[usize::from(code)], "");
                names[usize::from(code)] = name;
            }
        }
        for code in [0x1C, 0x45] {
            assert_eq!(names[code], "");
            names[code] = "byte";
        }
        for code in 0..=255 {
            assert_eq!(mnemonic(code), names[usize::from(code)]);
            let form = format!("{:?}", FORMS[usize::from(code)].mnemonic);
            assert_eq!(form.replace("None", "byte"), names[usize::from(code)]);
        }
    }

    #[test]
    fn operands_are_told_as_the_document_names_them() {
        for (at, bytes, text) in [
            (0x000, [0x00, 0xFF], "NOP"),
            (0x000, [0x14, 0x83], "STM 83"),
            (0x000, [0x14, 0xBF], "STM BF"),
            (0x000, [0x15, 0xF9], "LDI F9"),
            (0x000, [0x16, 0xF7], "CLI F7"),
            (0x000, [0x17, 0x3C], "CI  3C"),
            (0x000, [0x1E, 0xA5], "OCD A5"),
            (0x000, [0x1C, 0xFF], "byte 1C"),
            (0x000, [0x45, 0xFF], "byte 45"),
            (0x000, [0x23, 0xFF], "FBF 3"),
            (0x000, [0x2E, 0xFF], "XMD 2"),
            (0x000, [0x35, 0xFF], "CMB 1"),
            (0x000, [0x33, 0xFF], "IND"),
            (0x000, [0x44, 0xFF], "OE"),
            (0x000, [0x76, 0xFF], "SEB 2"),
            (0x000, [0x85, 0xFF], "LDZ 5"),
            (0x000, [0x9F, 0xFF], "LI  F"),
            (0x000, [0xA7, 0xD0], "JMP 7D0"),
            (0x000, [0xAB, 0x20], "CAL 320"),
            (0x234, [0xBF, 0xFF], "CZP 03C"),
            (0x03F, [0xC5, 0xFF], "JCP 005"),
            (0x7CF, [0xFF, 0x00], "JCP 7FF"),
        ] {
            assert_eq!(instruction(at, bytes[0], Some(bytes[1])), text);
        }
    }

    #[test]
    fn a_second_byte_is_looked_at_exactly_where_there_is_one() {
        for code in 0..=255 {
            let has = FORMS[usize::from(code)].bytes == 2;
            let told = [Some(0), Some(1), None].map(|second| instruction(0, code, second));
            assert_eq!(told[0] != told[1], has, "{code:02X}");
            assert_eq!(told[0] != told[2], has, "{code:02X}");
        }
    }
}

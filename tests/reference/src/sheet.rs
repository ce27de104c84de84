//! Request R-11, "The smaller relatives": how much of the machine a chip of the family has.

use crate::machine::State;
use crate::numbers::SHEET;

/// "A small sheet .. is three numbers".
#[derive(Clone, Copy, PartialEq, Eq, Debug)]
pub struct Sheet {
    /// "ROM bytes (1 to 2,000)".
    pub rom: u64,
    /// "which of RAM rows 0 to 4 exist (bit i for row i, at most 31; row 7 always, 5 and 6 never)".
    pub rows: u64,
    /// "stack levels (1 to 3)".
    pub levels: u64,
}

impl Sheet {
    /// "the old figures are one sheet"
    pub const UPD546: Sheet = Sheet {
        rom: 2_000,
        rows: 31,
        levels: 3,
    };

    pub fn is_legal(self) -> bool {
        (1..=2_000).contains(&self.rom) && self.rows <= 31 && (1..=3).contains(&self.levels)
    }

    /// What a legal sheet says; "71 .. a sheet outside these limits".
    pub(crate) fn chip(self) -> Result<Chip, u8> {
        if !self.is_legal() {
            return Err(SHEET);
        }
        let mut rows = [None; 8];
        for (row, start) in ROWS {
            if row == 7 || self.rows >> row & 1 == 1 {
                rows[row] = Some(start);
            }
        }
        Ok(Chip {
            rom: self.rom as u16,
            rows,
            levels: self.levels as u8,
        })
    }

    /// The state with zeros for what is absent; under a sheet that isn't legal, the state.
    pub fn fitted(self, state: &State) -> State {
        let mut state = state.clone();
        if let Ok(chip) = self.chip() {
            chip.clear_absent(&mut state);
        }
        state
    }
}

/// The rows that the uPD546 has, and where each begins in the RAM array.
const ROWS: [(usize, u8); 6] = [
    (0, 0x00),
    (1, 0x10),
    (2, 0x20),
    (3, 0x30),
    (4, 0x40),
    (7, 0x50),
];

/// Words of a row.
const ROW: usize = 16;

/// A legal sheet, as the machine looks at it.
#[derive(Clone, Copy, PartialEq, Eq, Debug)]
pub(crate) struct Chip {
    /// "7CF and 2,000 read as the sheet's last address and length": the length.
    pub rom: u16,
    /// Where each row that exists begins in the RAM array; "absent rows behave like 5 and 6".
    pub rows: [Option<u8>; 8],
    /// 1 to 3.
    pub levels: u8,
}

impl Chip {
    /// Whether a state "holds zeros for what is absent".
    pub(crate) fn has_all_of(&self, state: &State) -> bool {
        let mut cleared = state.clone();
        self.clear_absent(&mut cleared);
        cleared == *state
    }

    fn clear_absent(&self, state: &mut State) {
        for (row, start) in ROWS {
            if self.rows[row].is_none() {
                state.ram[usize::from(start)..][..ROW].fill(0);
            }
        }
        state.stack[usize::from(self.levels)..].fill(0);
    }
}

#[cfg(test)]
mod tests {
    use super::*;
    use crate::case::highest;

    fn sheet(rom: u64, rows: u64, levels: u64) -> Sheet {
        Sheet { rom, rows, levels }
    }

    #[test]
    fn a_sheet_is_judged_at_its_full_width() {
        for legal in [
            Sheet::UPD546,
            sheet(1, 0, 1),
            sheet(2, 31, 2),
            sheet(1_999, 16, 3),
        ] {
            assert!(legal.is_legal() && legal.chip().is_ok(), "{legal:?}");
        }
        let wide = [1 << 8, 1 << 16, 1 << 32, 1 << 63];
        let above = |value: u64| wide.map(|high| high | value).into_iter().chain([u64::MAX]);
        let roms = [0, 2_001]
            .into_iter()
            .chain(above(1_000))
            .filter(|&rom| rom != 0x3E8 | 1 << 8);
        let rows = [32, 63].into_iter().chain(above(3));
        let levels = [0, 4].into_iter().chain(above(2));
        let wrong = roms
            .map(|rom| sheet(rom, 3, 2))
            .chain(rows.map(|rows| sheet(1_000, rows, 2)))
            .chain(levels.map(|levels| sheet(1_000, 3, levels)));
        for wrong in wrong {
            assert_eq!(wrong.chip(), Err(71), "{wrong:?}");
        }
    }

    #[test]
    fn bit_i_is_for_row_i() {
        for rows in 0..=31 {
            let chip = sheet(9, rows, 1).chip().unwrap();
            for row in 0..5 {
                assert_eq!(chip.rows[row].is_some(), rows >> row & 1 == 1);
            }
            assert_eq!(chip.rows[5..], [None, None, Some(0x50)]);
        }
    }

    #[test]
    fn what_is_absent_is_rows_and_levels() {
        let chip = sheet(1, 0b01010, 2).chip().unwrap();
        let full = highest();
        assert!(!chip.has_all_of(&full));
        let fitted = sheet(1, 0b01010, 2).fitted(&full);
        assert!(chip.has_all_of(&fitted));
        assert_eq!(fitted.stack, [0x7FF, 0x7FF, 0]);
        for (place, &word) in fitted.ram.iter().enumerate() {
            let kept = matches!(place / 16, 1 | 3 | 5);
            assert_eq!(word, if kept { 15 } else { 0 });
        }
        // PC keeps its 11 bits, and nothing else is taken away.
        let State { ram, stack, .. } = fitted;
        let State { pc, .. } = full;
        assert_eq!(pc, 0x7FF);
        assert_eq!(
            State {
                ram,
                stack,
                ..full.clone()
            },
            sheet(1, 0b01010, 2).fitted(&full)
        );
        assert_eq!(Sheet::UPD546.fitted(&full), full);
    }
}

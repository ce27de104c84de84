//! Sheets that cases and tests are made under.

use crate::draw::Draw;
use crate::sheet::Sheet;

/// ROM lengths at the ends of pages and fields, and the ends of what is legal.
pub const ROMS: [u64; 8] = [1, 2, 63, 64, 65, 256, 1_000, 1_999];

/// A chip of half the ROM, with rows 0 and 1 and two levels.
pub const HALF: Sheet = Sheet {
    rom: 1_000,
    rows: 0b00011,
    levels: 2,
};

/// A chip of one page, with rows 0, 2 and 4 and two levels.
pub const PAGE: Sheet = Sheet {
    rom: 64,
    rows: 0b10101,
    levels: 2,
};

/// The least that is legal.
pub const LEAST: Sheet = Sheet {
    rom: 1,
    rows: 0,
    levels: 1,
};

/// Legal sheets of every kind: each ROM length, rows all over, levels in turn.
pub fn legal() -> Vec<Sheet> {
    let rows = [0b00000, 0b11111, 0b10101, 0b01010, 0b00011, 0b10000];
    ROMS.into_iter()
        .zip(rows.into_iter().cycle())
        .zip([1, 2, 3].into_iter().cycle())
        .map(|((rom, rows), levels)| Sheet { rom, rows, levels })
        .chain([HALF, PAGE, LEAST])
        .collect()
}

/// Sheets that are refused: a legal one with one number outside its limits, or the same in its low bits.
pub fn wrong(sheet: Sheet) -> Vec<Sheet> {
    let Sheet { rom, rows, levels } = sheet;
    let of_rom = |rom| Sheet { rom, ..sheet };
    let of_rows = |rows| Sheet { rows, ..sheet };
    let of_levels = |levels| Sheet { levels, ..sheet };
    let mut wrong = Vec::new();
    wrong.extend([0, 2_001, 1 << 16 | rom, 1 << 32 | rom, u64::MAX].map(of_rom));
    wrong.extend([32, 32 | rows, 256 | rows, 1 << 32 | rows, u64::MAX].map(of_rows));
    wrong.extend([0, 4, 256 | levels, 1 << 32 | levels, u64::MAX].map(of_levels));
    wrong
}

impl Draw {
    /// A legal sheet, often one with an end of a page or field, with no row or with one level.
    pub fn sheet(&mut self) -> Sheet {
        let rom = match self.below(3) {
            0 => 1 + self.below(2_000),
            _ => self.of(&ROMS),
        };
        let rows = match self.below(4) {
            0 => 0,
            1 => 31,
            _ => self.below(32),
        };
        let levels = 1 + self.below(3);
        Sheet { rom, rows, levels }
    }
}

#[cfg(test)]
mod tests {
    use super::*;

    #[test]
    fn sheets_are_what_they_are_called() {
        for sheet in legal() {
            assert!(sheet.is_legal(), "{sheet:?}");
            for wrong in wrong(sheet) {
                assert!(!wrong.is_legal(), "{wrong:?}");
            }
        }
        for rom in ROMS {
            assert!(legal().iter().any(|sheet| sheet.rom == rom));
        }
        for levels in 1..=3 {
            assert!(legal().iter().any(|sheet| sheet.levels == levels));
        }
        let mut draw = Draw::new(11);
        let drawn: Vec<Sheet> = (0..2_000).map(|_| draw.sheet()).collect();
        assert!(drawn.iter().all(|sheet| sheet.is_legal()));
        for rom in ROMS {
            assert!(drawn.iter().filter(|sheet| sheet.rom == rom).count() > 50);
        }
        for rows in 0..=31 {
            assert!(drawn.iter().any(|sheet| sheet.rows == rows));
        }
    }
}

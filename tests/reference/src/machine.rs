//! "The machine": the state, its widths, its stack and its RAM.

use crate::sheet::Chip;

/// "Mark: other, LDI, EI or STM, the kind of the last instruction begun", in the image's order.
pub(crate) mod mark {
    pub(crate) const OTHER: u8 = 0;
    pub(crate) const LDI: u8 = 1;
    pub(crate) const EI: u8 = 2;
    pub(crate) const STM: u8 = 3;
    /// "The mark gains the value 4 for LI in image byte 16".
    pub(crate) const LI: u8 = 4;
}

/// "Cycle number, at most 2^48 - 1".
pub(crate) const LAST_CYCLE: u64 = (1 << 48) - 1;

/// "a count of consecutive cycles with RES high, at most 4".
pub(crate) const RESET: u8 = 4;

/// Where the interrupt leads: "PC becomes 03C".
const INTERRUPT: u16 = 0x03C;

/// The RAM array's columns of row 7: "Word 79 is the flag word; Z, W, S, R, Y, X are 7A to 7F".
pub(crate) mod word {
    pub(crate) const FLAG: usize = 0x59;
    pub(crate) const Z: usize = 0x5A;
    pub(crate) const W: usize = 0x5B;
    pub(crate) const S: usize = 0x5C;
    pub(crate) const R: usize = 0x5D;
    pub(crate) const Y: usize = 0x5E;
    pub(crate) const X: usize = 0x5F;
}

/// The state of one machine. Flags are 0 or 1.
#[derive(Clone, PartialEq, Eq, Debug)]
pub struct State {
    /// Field (top 3 bits), page (2), address (6).
    pub pc: u16,
    /// Three PCs, newest first.
    pub stack: [u16; 3],
    pub acc: u8,
    /// C.
    pub carry: u8,
    /// C', the saved carry.
    pub saved: u8,
    pub dph: u8,
    pub dpl: u8,
    /// The INT flip-flop.
    pub int: u8,
    /// The INTE flip-flop.
    pub inte: u8,
    /// The timer flip-flop.
    pub tm: u8,
    /// The INT level last seen, 1 for high.
    pub level: u8,
    /// Other 0, LDI 1, EI 2, STM 3, LI 4.
    pub mark: u8,
    /// Cycles that the last instruction begun still takes.
    pub owed: u8,
    /// The timer's polynomial register, 0 when stopped.
    pub register: u8,
    /// The timer's binary counter, 0 when stopped.
    pub counter: u8,
    /// Output latches C to I.
    pub ports: [u8; 7],
    /// Rows 0 to 4 and 7, 16 words each.
    pub ram: [u8; 96],
    /// The number of the next machine cycle.
    pub cycle: u64,
    /// consecutive cycles with RES high, at most 4.
    pub count: u8,
}

impl State {
    /// "Fresh state: all zero, level high, mark other, timer stopped".
    pub fn fresh() -> State {
        State {
            pc: 0,
            stack: [0; 3],
            acc: 0,
            carry: 0,
            saved: 0,
            dph: 0,
            dpl: 0,
            int: 0,
            inte: 0,
            tm: 0,
            level: 1,
            mark: mark::OTHER,
            owed: 0,
            register: 0,
            counter: 0,
            ports: [0; 7],
            ram: [0; 96],
            cycle: 0,
            count: 0,
        }
    }

    /// Whether no field is "above its width or rule". The one rule across fields is that the
    /// counter is 0 when the timer is stopped. R-11: what the chip doesn't have holds zeros, "else 34".
    pub(crate) fn is_valid(&self, chip: &Chip) -> bool {
        let flags = [
            self.carry, self.saved, self.int, self.inte, self.tm, self.level,
        ];
        self.pc <= 0x7FF
            && self.stack.iter().all(|&address| address <= 0x7FF)
            && self.acc <= 15
            && flags.iter().all(|&flag| flag <= 1)
            && self.dph <= 7
            && self.dpl <= 15
            && self.mark <= mark::LI
            && self.owed <= 3
            && self.register <= 63
            && self.counter <= 63
            && (self.register != 0 || self.counter == 0)
            && self.ports[..6].iter().all(|&latch| latch <= 15)
            && self.ports[6] <= 7
            && self.ram.iter().all(|&word| word <= 15)
            && self.cycle <= LAST_CYCLE
            && self.count <= RESET
            && chip.has_all_of(self)
    }

    /// "A push shifts down and loses the oldest": the one in the chip's last level.
    #[inline(always)]
    pub(crate) fn push(&mut self, address: u16, chip: &Chip) {
        let [first, second, _] = self.stack;
        self.stack = match chip.levels {
            3 => [address, first, second],
            2 => [address, first, 0],
            _ => [address, 0, 0],
        };
    }

    /// "a pop shifts up and the lowest keeps its value": the lowest that the chip has.
    #[inline(always)]
    pub(crate) fn pop(&mut self, chip: &Chip) -> u16 {
        let [first, second, third] = self.stack;
        self.stack = match chip.levels {
            3 => [second, third, third],
            2 => [second, second, 0],
            _ => [first, 0, 0],
        };
        first
    }

    /// M, "the 4-bit RAM word at DP"; "rows 5 and 6 read 0", and those that the chip doesn't have.
    #[inline(always)]
    pub(crate) fn m(&self, chip: &Chip) -> u8 {
        match chip.rows[usize::from(self.dph & 7)] {
            Some(row) => self.ram[usize::from(row + (self.dpl & 15))],
            None => 0,
        }
    }

    /// Stores into M; rows 5 and 6 "lose writes", and those that the chip doesn't have.
    #[inline(always)]
    pub(crate) fn set_m(&mut self, value: u8, chip: &Chip) {
        if let Some(row) = chip.rows[usize::from(self.dph & 7)] {
            self.ram[usize::from(row + (self.dpl & 15))] = value;
        }
    }

    /// Whether step a accepts the interrupt: "If owed is 0, INTE and INT are 1 and the mark isn't
    /// EI"; R-5: "No interrupt is accepted while the mark is LDI or LI".
    #[inline(always)]
    pub(crate) fn accepts(&self) -> bool {
        self.owed == 0
            && self.inte & self.int != 0
            && !matches!(self.mark, mark::EI | mark::LDI | mark::LI)
    }

    /// Step a: "push PC, PC becomes 03C, INT and INTE become 0, mark other".
    #[inline(always)]
    pub(crate) fn accept(&mut self, chip: &Chip) {
        self.push(self.pc, chip);
        self.pc = INTERRUPT;
        self.int = 0;
        self.inte = 0;
        self.mark = mark::OTHER;
    }

    /// Step b: "A fall of INT sets the INT flip-flop".
    #[inline(always)]
    pub(crate) fn see(&mut self, line: u8) {
        if self.level > line {
            self.int = 1;
        }
        self.level = line;
    }

    /// the count after a cycle with this RES. "low makes the count 0"
    pub(crate) fn counted(&self, res: u8) -> u8 {
        if res == 0 {
            0
        } else {
            (self.count + 1).min(RESET)
        }
    }

    /// R-8: "PC, owed, INT, INTE, TM, timer and ports become 0 and the mark other; RAM, Acc, DP, carries and
    /// stack are kept."
    pub(crate) fn reset(&mut self) {
        self.pc = 0;
        self.owed = 0;
        self.int = 0;
        self.inte = 0;
        self.tm = 0;
        self.register = 0;
        self.counter = 0;
        self.ports = [0; 7];
        self.mark = mark::OTHER;
    }
}

/// The address after this one: "Only the low 8 bits count up, so 0FF is followed by 000".
#[inline(always)]
pub(crate) fn following(address: u16) -> u16 {
    (address & 0x700) | ((address + 1) & 0x0FF)
}

#[cfg(test)]
mod tests {
    use super::*;
    use crate::sheet::Sheet;

    #[test]
    fn only_the_low_8_bits_of_pc_count_up() {
        assert_eq!(following(0x000), 0x001);
        assert_eq!(following(0x03F), 0x040);
        assert_eq!(following(0x0FF), 0x000);
        assert_eq!(following(0x1FF), 0x100);
        assert_eq!(following(0x7CF), 0x7D0);
        assert_eq!(following(0x7FF), 0x700);
    }

    fn chip(rows: u64, levels: u64) -> Chip {
        let rom = 2_000;
        Sheet { rom, rows, levels }.chip().unwrap()
    }

    #[test]
    fn a_pop_keeps_the_lowest_and_a_push_loses_the_oldest() {
        for (levels, start, popped, pushed) in [
            (3, [1, 2, 3], [2, 3, 3], [9, 2, 3]),
            (2, [1, 2, 0], [2, 2, 0], [9, 2, 0]),
            (1, [1, 0, 0], [1, 0, 0], [9, 0, 0]),
        ] {
            let chip = chip(31, levels);
            let mut state = State::fresh();
            state.stack = start;
            assert_eq!(state.pop(&chip), 1);
            assert_eq!(state.stack, popped);
            state.push(9, &chip);
            assert_eq!(state.stack, pushed);
        }
    }

    /// All words of all rows are written; only those that exist are there afterwards.
    fn written(rows: u64) -> State {
        let chip = chip(rows, 3);
        let mut state = State::fresh();
        for row in 0..8 {
            for column in 0..16 {
                state.dph = row;
                state.dpl = column;
                state.set_m((row + column) & 15, &chip);
            }
        }
        for row in 0..8 {
            for column in 0..16 {
                state.dph = row;
                state.dpl = column;
                let exists = row == 7 || row < 5 && rows >> row & 1 == 1;
                let due = if exists { (row + column) & 15 } else { 0 };
                assert_eq!(state.m(&chip), due);
            }
        }
        assert!(state.is_valid(&chip));
        state
    }

    #[test]
    fn rows_that_are_absent_read_0_and_lose_writes() {
        for rows in 0..31 {
            written(rows);
        }
        let state = written(31);
        use word::{FLAG, R, S, W, X, Y, Z};
        for (place, column) in [FLAG, Z, W, S, R, Y, X].into_iter().zip(9..) {
            assert_eq!(state.ram[place], (7 + column) & 15);
        }
    }
}

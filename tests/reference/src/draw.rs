//! Numbers and states drawn for cases and tests: always the same ones.

use crate::case::LinesFrom;
use crate::machine::State;

/// A small generator (xorshift, the upper half of a product).
pub struct Draw(u64);

impl Draw {
    pub fn new(seed: u64) -> Draw {
        Draw(seed.wrapping_mul(0x9E37_79B9_7F4A_7C15) | 1)
    }

    /// A seed of the case file; never 0.
    pub fn seed(&mut self) -> u32 {
        self.next() | 1
    }

    pub fn next(&mut self) -> u32 {
        self.0 ^= self.0 >> 12;
        self.0 ^= self.0 << 25;
        self.0 ^= self.0 >> 27;
        (self.0.wrapping_mul(0x2545_F491_4F6C_DD1D) >> 32) as u32
    }

    pub fn below(&mut self, limit: u64) -> u64 {
        u64::from(self.next()) % limit
    }

    pub fn upto(&mut self, highest: u8) -> u8 {
        self.below(u64::from(highest) + 1) as u8
    }

    pub fn byte(&mut self) -> u8 {
        self.upto(255)
    }

    pub fn one_in(&mut self, count: u64) -> bool {
        self.below(count) == 0
    }

    pub fn of<T: Copy>(&mut self, choice: &[T]) -> T {
        choice[self.below(choice.len() as u64) as usize]
    }

    /// A word of four bits, often 0 or 15.
    pub fn word(&mut self) -> u8 {
        match self.below(4) {
            0 => 0,
            1 => 15,
            _ => self.upto(15),
        }
    }

    /// An address in the ROM, often at the end of a page or field.
    pub fn address(&mut self) -> u16 {
        match self.below(4) {
            0 => (self.below(31) as u16) << 6 | 0x3F,
            1 => (self.below(7) as u16) << 8 | 0xFE | self.below(2) as u16,
            _ => self.below(0x7C0) as u16,
        }
    }

    /// Any legal state but for its RAM, also one that no run reaches; PC and stack lie in the ROM.
    pub fn state(&mut self) -> State {
        let mut state = State::fresh();
        state.pc = self.address();
        state.stack = [0; 3].map(|_| self.address());
        state.acc = self.word();
        state.carry = self.upto(1);
        state.saved = self.upto(1);
        state.dph = self.upto(7);
        state.dpl = self.word();
        state.int = self.upto(1);
        state.inte = self.upto(1);
        state.tm = self.upto(1);
        state.level = self.upto(1);
        state.mark = self.upto(4);
        state.owed = self.upto(3);
        state.register = self.upto(63);
        state.counter = if state.register == 0 {
            0
        } else {
            self.upto(63)
        };
        state.ports = [15, 15, 15, 15, 15, 15, 7].map(|highest| self.upto(highest));
        state.cycle = match self.below(3) {
            0 => 0,
            1 => self.below(1 << 20),
            _ => self.below(1 << 24) << 24 | self.below(1 << 23),
        };
        state
    }

    /// The same with a count of cycles with RES high.
    pub fn counted_state(&mut self) -> State {
        let mut state = self.state();
        state.count = self.upto(4);
        state
    }

    /// A few records around the cycles from this one on, with RES high for one to six cycles in between.
    pub fn resets(&mut self, from: u64) -> Vec<LinesFrom> {
        let mut cycle = from.saturating_sub(self.below(3));
        let mut records = Vec::new();
        let mut res = self.upto(1);
        for _ in 0..self.below(5) {
            records.push((cycle, self.byte(), self.byte(), self.upto(1), res));
            cycle += 1 + self.below(6);
            res = if self.one_in(4) { res } else { 1 - res };
        }
        records
    }

    /// A few records around the cycles from this one on.
    pub fn records(&mut self, from: u64) -> Vec<(u64, u8, u8, u8)> {
        let mut cycle = from.saturating_sub(self.below(3));
        let mut records = Vec::new();
        for _ in 0..self.below(4) {
            records.push((cycle, self.byte(), self.byte(), self.upto(1)));
            cycle += 1 + self.below(2);
        }
        records
    }
}

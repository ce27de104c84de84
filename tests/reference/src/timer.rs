//! "Timer": the 6-bit polynomial register and the binary counter.

use crate::machine::State;

/// The register's cycle: "it is 1 again after 63 steps".
const PERIOD: usize = 63;

/// "The 6-bit polynomial register steps to twice itself modulo 64, plus 1 if bits 5 and 4 differ"
const fn next_register(register: u8) -> u8 {
    ((register << 1) & 63) | (((register >> 5) ^ (register >> 4)) & 1)
}

/// The register after each one; 0, a timer that is stopped, stays.
static NEXT: [u8; 64] = next_registers();

const fn next_registers() -> [u8; 64] {
    let mut table = [0; 64];
    let mut register = 0;
    while register < 64 {
        table[register] = next_register(register as u8);
        register += 1;
    }
    table
}

/// The register at each position, "the register 1 having position 0".
static REGISTERS: [u8; PERIOD] = registers();

/// The position of each register, 1 to 63.
static POSITIONS: [u8; PERIOD] = positions();

const fn registers() -> [u8; PERIOD] {
    let mut table = [0; PERIOD];
    let mut register = 1;
    let mut position = 0;
    while position < PERIOD {
        table[position] = register;
        register = next_register(register);
        position += 1;
    }
    table
}

const fn positions() -> [u8; PERIOD] {
    let registers = registers();
    let mut table = [0; PERIOD];
    let mut position = 0;
    while position < PERIOD {
        table[registers[position] as usize - 1] = position as u8;
        position += 1;
    }
    table
}

impl State {
    /// "STM sets the register to 1 and the binary counter to I, its 6 operand bits."
    #[inline(always)]
    pub(crate) fn start_timer(&mut self, interval: u8) {
        self.tm = 0;
        self.register = 1;
        self.counter = interval;
    }

    /// One step of a running timer. "When a step returns to 1: counter 0 sets TM and stops the
    /// timer (one shot: house), else it falls by 1."
    #[inline(always)]
    pub(crate) fn step_timer(&mut self) {
        self.register = NEXT[usize::from(self.register & 63)];
        if self.register == 1 {
            if self.counter == 0 {
                self.ring();
            } else {
                self.counter -= 1;
            }
        }
    }

    /// r, "the ticks left: 63 minus position plus 63 times counter", of a running timer.
    pub(crate) fn ticks_left(&self) -> u64 {
        let position = POSITIONS[usize::from(self.register) - 1];
        63 - u64::from(position) + 63 * u64::from(self.counter)
    }

    /// As many steps at once, at most the ticks left.
    pub(crate) fn step_timer_by(&mut self, steps: u64) {
        match self.ticks_left() - steps {
            0 => self.ring(),
            left => {
                self.register = REGISTERS[62 - (left - 1) as usize % PERIOD];
                self.counter = ((left - 1) / 63) as u8;
            }
        }
    }

    /// TM is set and the timer stops (one shot).
    #[inline(always)]
    fn ring(&mut self) {
        self.tm = 1;
        self.register = 0;
        self.counter = 0;
    }
}

#[cfg(test)]
mod tests {
    use super::*;

    #[test]
    fn the_register_goes_as_the_document_lists_it() {
        let listed = [1, 2, 4, 8, 16, 33, 3, 6, 12, 24, 49, 34];
        assert_eq!(REGISTERS[..12], listed);
        assert_eq!(next_register(REGISTERS[62]), 1);
        let mut sorted = REGISTERS;
        sorted.sort_unstable();
        assert!(sorted.iter().copied().eq(1..=63));
    }

    #[test]
    fn the_two_tables_are_inverse() {
        for (position, &register) in REGISTERS.iter().enumerate() {
            assert_eq!(usize::from(POSITIONS[usize::from(register) - 1]), position);
        }
    }

    #[test]
    fn r_counts_the_single_steps_to_tm() {
        for register in 1..=63 {
            for counter in [0, 1, 2, 31, 63] {
                let mut state = State::fresh();
                state.register = register;
                state.counter = counter;
                let left = state.ticks_left();
                for _ in 0..left {
                    assert_eq!(state.tm, 0);
                    assert_ne!(state.register, 0);
                    state.step_timer();
                }
                assert_eq!((state.tm, state.register, state.counter), (1, 0, 0));
            }
        }
    }

    #[test]
    fn many_steps_at_once_are_as_many_single_steps() {
        for register in 1..=63 {
            for counter in [0, 1, 2] {
                let mut one_by_one = State::fresh();
                one_by_one.register = register;
                one_by_one.counter = counter;
                let start = one_by_one.clone();
                for steps in 1..=start.ticks_left() {
                    one_by_one.step_timer();
                    let mut at_once = start.clone();
                    at_once.step_timer_by(steps);
                    assert_eq!(at_once, one_by_one);
                }
            }
        }
    }
}

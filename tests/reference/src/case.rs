//! One case of the comparisons: how it is told, and run; and the generator and the digests that they
//! share.
//!
//! The generator goes from s to 1664525 s + 1013904223 modulo 2^32; x is the top eight bits of the
//! new s and y the eight below. Where a seed is 0, all bytes are 0.
//!
//! A ROM byte is x, passed through these filters in this order:
//!
//! - 2: if it is C0 or more and y % 8 isn't 0, 64 (1 + y % 3) less;
//! - 8: if it is 41, 48, 49 or A0 to BF and y % 8 isn't 0, y % 64;
//! - 16: if it is 0E, 1E, 44, 60 to 67 or 70 to 77, 80 + y % 32;
//! - 1: if it is 1C or 45, 0;
//! - 4: at 7CE A0, elsewhere from 7C0 on 0, and if it is A7 or AF, 0. Under another sheet with its last address in place
//!   of 7CF: the byte before it, its page from the first address on, and JMP and CAL to its field and those behind.
//!
//! A schedule record takes two numbers: x and y of the first are the ports, the top bit of the
//! second is the INT level. RES is 1 where the seven bits below that are a multiple of what the case
//! says, 0 where it says 0. The next record is 1 + z cycles later, where z is the top half of the
//! second number modulo the gap, 0 if the gap is 0. A RAM word is the top four bits of x, and 0 in a row that the sheet
//! hasn't.

use crate::lent::{self, Lent};
use crate::machine::State;
use crate::runners::{Answer, Coverage, Runner};
use crate::sheet::Sheet;

/// The filters of a ROM.
pub const NO_STOPS: u8 = 1;
pub const FEW_JCP: u8 = 2;
pub const INSIDE: u8 = 4;
pub const FEW_JUMPS: u8 = 8;
pub const NO_PORTS: u8 = 16;

/// Log bytes where a case says nothing else; and the longest ROM that is made for a sheet.
const LOG: u32 = 64;
const LONGEST_ROM: u64 = 4_096;

/// A run of bytes at an address.
type Patch = (u16, Vec<u8>);

#[derive(Clone)]
pub struct Case {
    pub name: String,
    /// The number that it has to end with, where that is told.
    pub ends: Option<u8>,
    runner: Runner,
    filter: u8,
    rom_length: u16,
    rom_seed: u32,
    rom_patches: Vec<Patch>,
    schedule_length: u16,
    gap: u16,
    schedule_seed: u32,
    first: u64,
    resets: u8,
    schedule_patches: Vec<Patch>,
    ram_seed: u32,
    ram_patches: Vec<Patch>,
    /// All of the state but its RAM.
    state: State,
    log_length: u32,
    n: u64,
    sheet: Sheet,
}

impl Case {
    /// A fresh state, a ROM of NOPs, no schedule and no cycles, on the uPD546.
    pub fn new(name: impl Into<String>) -> Case {
        Case {
            name: name.into(),
            ends: None,
            runner: Runner::Plain,
            filter: 0,
            rom_length: Sheet::UPD546.rom as u16,
            rom_seed: 0,
            rom_patches: Vec::new(),
            schedule_length: 0,
            gap: 0,
            schedule_seed: 0,
            first: 0,
            resets: 0,
            schedule_patches: Vec::new(),
            ram_seed: 0,
            ram_patches: Vec::new(),
            state: State::fresh(),
            log_length: LOG,
            n: 0,
            sheet: Sheet::UPD546,
        }
    }

    /// The same under another sheet, with a ROM as long as that says, where it can be.
    pub fn sheet(mut self, sheet: Sheet) -> Case {
        self.sheet = sheet;
        self.rom_length = sheet.rom.min(LONGEST_ROM) as u16;
        self
    }

    /// The same on the timer-skipping runner.
    pub fn skipping(&self) -> Case {
        Case {
            name: format!("{}, skipping", self.name),
            runner: Runner::Skipping,
            ..self.clone()
        }
    }

    pub fn ends(mut self, number: u8) -> Case {
        self.ends = Some(number);
        self
    }

    pub fn made_rom(mut self, seed: u32, filter: u8) -> Case {
        self.rom_seed = seed;
        self.filter = filter;
        self
    }

    pub fn rom(mut self, address: u16, bytes: &[u8]) -> Case {
        self.rom_patches.push((address, bytes.to_vec()));
        self
    }

    pub fn rom_length(mut self, length: u16) -> Case {
        self.rom_length = length;
        self
    }

    /// A schedule of these records: cycle, A and B, C and D, INT. RES is low.
    pub fn schedule(self, records: &[(u64, u8, u8, u8)]) -> Case {
        self.schedule_of(schedule(records))
    }

    /// A schedule of these records: cycle, A and B, C and D, INT, RES.
    pub fn lines(self, records: &[LinesFrom]) -> Case {
        self.schedule_of(lines(records))
    }

    fn schedule_of(mut self, bytes: Vec<u8>) -> Case {
        self.schedule_length = bytes.len() as u16;
        self.schedule_patches = vec![(0, bytes)];
        self
    }

    /// A schedule of the generator: length in bytes, seed, gap and first cycle.
    pub fn made_schedule(mut self, length: u16, seed: u32, gap: u16, first: u64) -> Case {
        self.schedule_length = length;
        self.schedule_seed = seed;
        self.gap = gap;
        self.first = first;
        self
    }

    /// In a schedule of the generator RES is high in about one of so many records; in none for 0.
    pub fn resets(mut self, one_in: u8) -> Case {
        self.resets = one_in;
        self
    }

    pub fn schedule_bytes(mut self, address: u16, bytes: &[u8]) -> Case {
        self.schedule_patches.push((address, bytes.to_vec()));
        self
    }

    pub fn state(mut self, state: State) -> Case {
        self.state = state;
        self
    }

    pub fn with(mut self, change: impl FnOnce(&mut State)) -> Case {
        change(&mut self.state);
        self
    }

    pub fn made_ram(mut self, seed: u32) -> Case {
        self.ram_seed = seed;
        self
    }

    pub fn ram(mut self, place: u16, words: &[u8]) -> Case {
        self.ram_patches.push((place, words.to_vec()));
        self
    }

    pub fn log(mut self, length: u32) -> Case {
        self.log_length = length;
        self
    }

    pub fn n(mut self, n: u64) -> Case {
        self.n = n;
        self
    }

    /// The state that the run starts from.
    pub fn start(&self) -> State {
        let mut state = self.state.clone();
        state.ram = self.made_ram_words();
        state
    }

    /// How many cycles it asks for.
    pub fn cycles(&self) -> u64 {
        self.n
    }

    /// What its run is lent.
    pub fn lent(&self) -> Lent {
        Lent {
            runner: self.runner,
            rom: self.made_rom_bytes(),
            schedule: self.made_schedule_bytes(),
            state: self.start(),
            log: (0..self.log_length)
                .map(|place| (7 * place + 13) as u8)
                .collect(),
            n: self.n,
            sheet: self.sheet,
        }
    }

    /// The sheet that it is run under.
    pub fn under(&self) -> Sheet {
        self.sheet
    }

    /// Runs the case, and answers its log too.
    pub fn run(&self, coverage: &mut Coverage) -> (Answer, Vec<u8>) {
        self.lent().run_observed(coverage)
    }

    pub fn made_rom_bytes(&self) -> Vec<u8> {
        let mut rom = vec![0; usize::from(self.rom_length)];
        let mut s = self.rom_seed;
        if s != 0 {
            for (at, byte) in rom.iter_mut().enumerate() {
                s = next(s);
                *byte = filtered(s, self.filter, at, usize::from(self.rom_length));
            }
        }
        lay(&mut rom, &self.rom_patches);
        rom
    }

    pub fn made_schedule_bytes(&self) -> Vec<u8> {
        let mut schedule = vec![0; usize::from(self.schedule_length)];
        let mut s = self.schedule_seed;
        let mut cycle = self.first;
        if s != 0 {
            for place in schedule.chunks_mut(10) {
                s = next(s);
                let t = next(s);
                let res = self.resets > 0 && (top(t) & 127).is_multiple_of(self.resets);
                let int = top(t) >> 7;
                let whole = reset_record(cycle, top(s), below_top(s), int, u8::from(res));
                place.copy_from_slice(&whole[..place.len()]);
                cycle = cycle % (1 << 48) + 1;
                if self.gap > 0 {
                    cycle += u64::from(t >> 16) % u64::from(self.gap);
                }
                s = t;
            }
        }
        lay(&mut schedule, &self.schedule_patches);
        schedule
    }

    fn made_ram_words(&self) -> [u8; 96] {
        let mut ram = [0; 96];
        let mut s = self.ram_seed;
        if s != 0 {
            for word in &mut ram {
                s = next(s);
                *word = top(s) >> 4;
            }
        }
        let made = State {
            ram,
            ..State::fresh()
        };
        ram = self.sheet.fitted(&made).ram;
        lay(&mut ram, &self.ram_patches);
        ram
    }
}

/// The lines from a cycle on: the cycle, A and B, C and D, INT, RES.
pub type LinesFrom = (u64, u8, u8, u8, u8);

/// A record of a schedule: cycle, A and B, C and D, INT. RES is low.
pub fn record(cycle: u64, ab: u8, cd: u8, int: u8) -> Vec<u8> {
    reset_record(cycle, ab, cd, int, 0)
}

/// The same with RES.
pub fn reset_record(cycle: u64, ab: u8, cd: u8, int: u8, res: u8) -> Vec<u8> {
    let mut record = cycle.to_be_bytes()[2..].to_vec();
    record.extend([ab, cd, int, res]);
    record
}

pub fn schedule(records: &[(u64, u8, u8, u8)]) -> Vec<u8> {
    records
        .iter()
        .flat_map(|&(cycle, ab, cd, int)| record(cycle, ab, cd, int))
        .collect()
}

/// A schedule with RES.
pub fn lines(records: &[LinesFrom]) -> Vec<u8> {
    records
        .iter()
        .flat_map(|&(cycle, ab, cd, int, res)| reset_record(cycle, ab, cd, int, res))
        .collect()
}

/// A panel as program `trace` reads it: n, code at some addresses of a ROM of NOPs, and a schedule.
pub fn panel(n: u32, code: &[(usize, &[u8])], schedule: &[u8]) -> Vec<u8> {
    let mut rom = vec![0; lent::ROM];
    for &(address, bytes) in code {
        rom[address..address + bytes.len()].copy_from_slice(bytes);
    }
    [&n.to_be_bytes(), &rom[..], schedule].concat()
}

/// The generator.
pub fn next(s: u32) -> u32 {
    s.wrapping_mul(1_664_525).wrapping_add(1_013_904_223)
}

/// The top eight bits of its number.
pub fn top(s: u32) -> u8 {
    (s >> 24) as u8
}

fn below_top(s: u32) -> u8 {
    (s >> 16) as u8
}

/// The byte at an address of a ROM of so many bytes.
fn filtered(s: u32, filter: u8, at: usize, length: usize) -> u8 {
    let mut x = top(s);
    let y = below_top(s);
    if filter & FEW_JCP != 0 && x >= 0xC0 && !y.is_multiple_of(8) {
        x -= 64 * (1 + y % 3);
    }
    if filter & FEW_JUMPS != 0
        && matches!(x, 0x41 | 0x48 | 0x49 | 0xA0..=0xBF)
        && !y.is_multiple_of(8)
    {
        x = y % 64;
    }
    if filter & NO_PORTS != 0 && matches!(x, 0x0E | 0x1E | 0x44 | 0x60..=0x67 | 0x70..=0x77) {
        x = 0x80 + y % 32;
    }
    if filter & NO_STOPS != 0 && matches!(x, 0x1C | 0x45) {
        x = 0;
    }
    if filter & INSIDE != 0 {
        let last = length - 1;
        let leaves = matches!(x, 0xA0..=0xAF) && usize::from(x & 7) >= last >> 8;
        if at + 1 == last {
            x = 0xA0;
        } else if at >= last & 0x7C0 || leaves {
            x = 0;
        }
    }
    x
}

fn lay(target: &mut [u8], patches: &[Patch]) {
    for (address, run) in patches {
        for (place, &byte) in run.iter().enumerate() {
            if let Some(under) = target.get_mut(usize::from(*address) + place) {
                *under = byte;
            }
        }
    }
}

/// PC, stack and the 13 registers.
fn registers(state: &State) -> Vec<u8> {
    let mut bytes = state.pc.to_be_bytes().to_vec();
    for address in state.stack {
        bytes.extend(address.to_be_bytes());
    }
    bytes.extend([state.acc, state.carry, state.saved, state.dph, state.dpl]);
    bytes.extend([state.int, state.inte, state.tm, state.level]);
    bytes.extend([state.mark, state.owed, state.register, state.counter]);
    bytes
}

/// Every field at its highest.
pub fn highest() -> State {
    State {
        pc: 0x7FF,
        stack: [0x7FF; 3],
        acc: 15,
        carry: 1,
        saved: 1,
        dph: 7,
        dpl: 15,
        int: 1,
        inte: 1,
        tm: 1,
        level: 1,
        mark: 4,
        owed: 3,
        register: 63,
        counter: 63,
        ports: [15, 15, 15, 15, 15, 15, 7],
        ram: [15; 96],
        cycle: (1 << 48) - 1,
        count: 4,
    }
}

/// A state as a value, the bytes of its fields: PC, stack, the 13 registers, ports, RAM, cycle number and count.
pub fn state_bytes(state: &State) -> Vec<u8> {
    let mut bytes = registers(state);
    bytes.extend(state.ports);
    bytes.extend(state.ram);
    bytes.extend(state.cycle.to_be_bytes());
    bytes.push(state.count);
    bytes
}

pub fn digest(bytes: &[u8]) -> u64 {
    digest_from(0, bytes)
}

/// The digest of bytes, of which those before have the digest h.
pub fn digest_from(h: u64, bytes: &[u8]) -> u64 {
    bytes
        .iter()
        .fold(h, |h, &x| (257 * h + u64::from(x) + 1) % 1_000_000_007)
}

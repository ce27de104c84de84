//! ROMs, schedules and states to try things on.

pub use reference::case::{lines, record, reset_record, schedule};
pub use reference::draw::Draw;
use reference::{run_observed as run_under, Answer, Observer, Runner, Sheet, State, Version};

pub const LAST_CYCLE: u64 = (1 << 48) - 1;

pub const OTHER: u8 = 0;
pub const LDI: u8 = 1;
pub const EI: u8 = 2;
pub const STM: u8 = 3;
pub const LI: u8 = 4;

/// A ROM of NOPs with these bytes at these addresses.
pub fn rom(parts: &[(usize, &[u8])]) -> Vec<u8> {
    let mut rom = vec![0; 2_000];
    for &(address, bytes) in parts {
        rom[address..address + bytes.len()].copy_from_slice(bytes);
    }
    rom
}

/// One log record.
pub fn written(cycle: u64, port: u8, value: u8) -> Vec<u8> {
    let mut record = cycle.to_be_bytes()[2..].to_vec();
    record.extend([port, value]);
    record
}

/// A run on the uPD546, and so a save and a restore; `sheet.rs` has the other sheets.
pub fn run(
    runner: Runner,
    rom: &[u8],
    schedule: &[u8],
    state: &State,
    log: &mut [u8],
    n: u64,
) -> Answer {
    reference::run(runner, rom, schedule, state, log, n, Sheet::UPD546)
}

pub fn run_observed<O: Observer>(
    runner: Runner,
    rom: &[u8],
    schedule: &[u8],
    state: &State,
    log: &mut [u8],
    n: u64,
    observer: O,
) -> Answer {
    let sheet = Sheet::UPD546;
    run_under(runner, rom, schedule, state, log, n, sheet, observer)
}

pub fn save(version: Version, state: &State, buffer: &mut [u8]) -> u8 {
    reference::save(version, state, buffer, Sheet::UPD546)
}

pub fn restore(bytes: &[u8]) -> (u8, State) {
    reference::restore(bytes, Sheet::UPD546)
}

/// A run with room for every record; the log is cut to what was written.
pub fn go(runner: Runner, rom: &[u8], schedule: &[u8], state: &State, n: u64) -> (Answer, Vec<u8>) {
    let mut log = vec![0; 16 * n as usize];
    let answer = run(runner, rom, schedule, state, &mut log, n);
    log.truncate(answer.written);
    (answer, log)
}

/// The state after n cycles that all take place.
pub fn after(rom: &[u8], schedule: &[u8], state: &State, n: u64) -> State {
    let (answer, _) = go(Runner::Plain, rom, schedule, state, n);
    assert_eq!((answer.number, answer.cycles), (0, n));
    answer.state
}

/// Any valid state, also one that no run reaches.
pub fn any_state(draw: &mut Draw) -> State {
    let mut state = draw.state();
    state.pc = draw.below(0x800) as u16;
    state.stack = [0; 3].map(|_| draw.below(0x800) as u16);
    state.ram = [0; 96].map(|_| draw.upto(15));
    if draw.one_in(2) {
        state.count = draw.upto(4);
    }
    state
}

/// A ROM of random bytes. One in two has few JCP, so that a run goes far before it goes round; two
/// in three have no codes 1C and 45 and no JMP and CAL to field 7, so that it goes on. Waiting
/// loops, some with an STM before them, are put in.
pub fn any_rom(draw: &mut Draw) -> Vec<u8> {
    let mut rom: Vec<u8> = (0..2_000).map(|_| draw.upto(255)).collect();
    if draw.one_in(2) {
        for byte in &mut rom {
            if *byte >= 0xC0 && !draw.one_in(8) {
                *byte = draw.upto(0xBF);
            }
        }
    }
    if !draw.one_in(3) {
        for byte in &mut rom {
            if matches!(*byte, 0x1C | 0x45 | 0xA7 | 0xAF) {
                *byte = 0x05;
            }
        }
    }
    for _ in 0..draw.below(120) {
        let at = draw.below(1_998) as usize;
        if at % 64 < 63 {
            rom[at] = 0x05;
            rom[at + 1] = 0xC0 | (at % 64) as u8;
            if at >= 2 && draw.one_in(2) {
                rom[at - 2] = 0x14;
                let longest = if draw.one_in(4) { 255 } else { 3 };
                rom[at - 1] = draw.upto(longest);
            }
        }
    }
    rom
}

/// A schedule with records around the cycles after this one. One in two has RES high in some records.
pub fn any_schedule(draw: &mut Draw, from: u64) -> Vec<u8> {
    let mut schedule = Vec::new();
    let mut cycle = from.saturating_sub(draw.below(100));
    let widest = [2, 7, 40, 300, 2_000][draw.below(5) as usize];
    let resets = draw.one_in(2);
    for _ in 0..draw.below(80) {
        if cycle > LAST_CYCLE {
            break;
        }
        let (ab, cd, int) = (draw.upto(255), draw.upto(255), draw.upto(1));
        let res = resets && draw.one_in(4);
        schedule.extend(reset_record(cycle, ab, cd, int, u8::from(res)));
        cycle += 1 + draw.below(widest);
    }
    schedule
}

/// A panel to run: ROM, schedule and a start that is often about to wait for the timer.
pub fn any_panel(draw: &mut Draw) -> (Vec<u8>, Vec<u8>, State) {
    let rom = any_rom(draw);
    let mut state = any_state(draw);
    if !draw.one_in(4) {
        state.stack = state.stack.map(|address| address % 2_000);
        state.pc %= 2_000;
    }
    if draw.one_in(2) {
        let loops: Vec<usize> = (0..1_999)
            .filter(|&at| rom[at] == 0x05 && rom[at + 1] == 0xC0 | (at % 64) as u8)
            .collect();
        if !loops.is_empty() {
            state.pc = loops[draw.below(loops.len() as u64) as usize] as u16;
        }
        if !draw.one_in(4) {
            state.owed = 0;
            state.tm = 0;
            state.int = 0;
        }
    }
    let schedule = any_schedule(draw, state.cycle);
    (rom, schedule, state)
}

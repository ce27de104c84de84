//! The same runs as crates/test_speed, by this interpreter: reads the same load and writes the same line.
//!
//! Before the ROM stand the runner (1 byte: 0 plain, any other timer-skipping), how many slices there are and how many
//! cycles each has (4 bytes each), and the sheet: ROM bytes (2), rows (1) and levels (1). Behind the ROM, which has as many
//! bytes as the sheet says, stands the schedule. Numbers are big-endian.

use std::io::Read;

use reference::{run, Runner, Sheet, State};

const ROM_AT: usize = 13;

/// 16n bytes for a slice of 100,000 cycles, which has room for all its records.
const LOG: usize = 16 * 100_000;

fn number(bytes: &[u8]) -> u64 {
    bytes.iter().fold(0, |n, &byte| 256 * n + u64::from(byte))
}

fn main() {
    let mut input = Vec::new();
    std::io::stdin()
        .read_to_end(&mut input)
        .expect("standard input is read");
    let Some((head, rest)) = input.split_at_checked(ROM_AT) else {
        return println!("the input is cut short");
    };
    let runner = match head[0] {
        0 => Runner::Plain,
        _ => Runner::Skipping,
    };
    let (slices, n) = (number(&head[1..5]), number(&head[5..9]));
    let sheet = Sheet {
        rom: number(&head[9..11]),
        rows: u64::from(head[11]),
        levels: u64::from(head[12]),
    };
    let Some((rom, schedule)) = rest.split_at_checked(sheet.rom as usize) else {
        return println!("the input is cut short");
    };
    let mut log = vec![0; LOG];
    let mut state = State::fresh();
    let (mut cycles, mut begun, mut bytes, mut steps, mut digest) = (0, 0, 0, 0, 0);
    for _ in 0..slices {
        let answer = run(runner, rom, schedule, &state, &mut log, n, sheet);
        cycles += answer.cycles;
        begun += answer.begun;
        bytes += answer.written;
        steps += answer.steps;
        if let Some(at) = answer.written.checked_sub(8) {
            let last = 256 * u64::from(log[at + 5]) + u64::from(log[at + 7]);
            digest = (digest * 31 + last) % 1_000_000_007;
        }
        state = answer.state;
    }
    println!("{cycles} {begun} {bytes} {steps} {digest} {}", state.pc);
}

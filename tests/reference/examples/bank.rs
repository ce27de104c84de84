//! The rounds of board/cost.c by this interpreter: `bank COUNT T RUNNER` makes so many rounds of T cycles on its bank of sixteen, and prints
//! the same line. RUNNER is `skipping`, by a round; or `plain`, cycle by cycle, each panel by itself for its sixteenth, which prints a line
//! of its own, since its steps are others.

use std::env;

use reference::bank::{round_bytes, ENTRY, MOST};
use reference::call::{call, fresh};
use reference::case::digest;
use reference::load::{rom, schedule};
use reference::Sheet;

const IMAGE: usize = 82;
const REPORT: usize = 114;

/// LDZ 5, STM 63, TTM, JCP 003, CMA, OP, JCP 001.
const WAITING: [u8; 8] = [0x85, 0x14, 0xBF, 0x05, 0xC3, 0x10, 0x0E, 0xC1];

/// A panel's ROM and schedule: even ones are loads of request R-4, odd ones wait on their timer.
fn parts(panel: usize) -> (Vec<u8>, Vec<u8>) {
    if panel.is_multiple_of(2) {
        let seed = panel as u32 / 2;
        return (rom(seed), schedule(seed, 4_096));
    }
    let mut rom = vec![0; 2_000];
    rom[..WAITING.len()].copy_from_slice(&WAITING);
    (rom, Vec::new())
}

fn main() {
    let words: Vec<String> = env::args().skip(1).collect();
    let [count, t, runner] = &words[..] else {
        return eprintln!("bank COUNT T RUNNER");
    };
    let number = |word: &str| word.parse::<u64>().expect("a number");
    let (count, t) = (number(count), number(t));
    let (each, room) = (t / MOST as u64, t as usize);
    let panels: Vec<_> = (0..MOST).map(parts).collect();
    let mut bank = Vec::new();
    for (rom, schedule) in &panels {
        let mut image = vec![0; IMAGE];
        assert_eq!(fresh(&mut image), 0);
        bank.extend(image);
        for number in [each, rom.len() as u64, schedule.len() as u64, room as u64] {
            bank.extend(number.to_be_bytes());
        }
        bank.extend([0; 33]);
    }
    let roms: Vec<u8> = panels.iter().flat_map(|(rom, _)| rom.clone()).collect();
    let schedules: Vec<u8> = panels.iter().flat_map(|(_, lines)| lines.clone()).collect();
    let mut logs = vec![0; MOST * room];
    let mut number = 0;
    for _ in 0..count {
        if runner == "skipping" {
            number = round_bytes(&mut bank, &roms, &schedules, &mut logs, t, Sheet::UPD546);
            continue;
        }
        for (place, (rom, schedule)) in panels.iter().enumerate() {
            let (image, rest) = bank[place * ENTRY..][..ENTRY].split_at_mut(IMAGE);
            let log = &mut logs[place * room..][..room];
            let (report, told) = rest[REPORT - IMAGE..].split_at_mut(32);
            let sheet = Sheet::UPD546;
            told[0] = call(image, rom, schedule, log, each, 0, report, sheet);
        }
    }
    let written: u64 = bank
        .chunks(ENTRY)
        .map(|entry| {
            entry[130..138]
                .iter()
                .fold(0, |n, &b| n << 8 | u64::from(b))
        })
        .sum();
    println!("{number} {} {written}", digest(&bank));
}

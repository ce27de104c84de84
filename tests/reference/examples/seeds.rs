//! Which seeds of request R-4 run ten million cycles from the fresh state without a stop, and how many addresses each visits: a seed's
//! load is its ROM and its schedule of 4,096 records. `seeds FIRST LAST` measures the seeds from FIRST to LAST and prints a line for
//! each that runs so long, and one with how many ended how.
//!
//! Addresses visited are those at which an instruction was begun, in all and after the last record's cycle, from which on the lines
//! stay. Records are those of the port log, in all and after that cycle.

use std::env;

use reference::load::{rom, schedule, MOST};
use reference::{run_observed, Observer, Runner, Sheet, State};

const CYCLES: u64 = 10_000_000;

/// The addresses at which an instruction was begun.
struct Addresses([bool; 2_048]);

impl Addresses {
    fn none() -> Addresses {
        Addresses([false; 2_048])
    }

    fn count(&self) -> usize {
        self.0.iter().filter(|&&begun| begun).count()
    }
}

impl Observer for &mut Addresses {
    fn begun(&mut self, at: u16, _code: u8, _passed: Option<u16>, _times: u64) {
        self.0[usize::from(at)] = true;
    }
}

/// A seed's load: the number at which it ended, its cycles, addresses and records, and those after the last record of the schedule.
struct Measured {
    number: u8,
    cycles: u64,
    addresses: usize,
    records: usize,
    later_addresses: usize,
    later_records: usize,
}

fn measure(seed: u32, log: &mut [u8]) -> Measured {
    let (rom, schedule) = (rom(seed), schedule(seed, MOST));
    let last = &schedule[schedule.len() - 10..][..6];
    let last = last.iter().fold(0, |n, &byte| n << 8 | u64::from(byte));
    let (mut all, mut later) = (Addresses::none(), Addresses::none());
    let start = State::fresh();
    let mut measured = |from: &State, n: u64, addresses: &mut Addresses| {
        let sheet = Sheet::UPD546;
        run_observed(
            Runner::Plain,
            &rom,
            &schedule,
            from,
            log,
            n,
            sheet,
            addresses,
        )
    };
    let first = measured(&start, last, &mut all);
    let left = if first.number == 0 { CYCLES - last } else { 0 };
    let second = measured(&first.state, left, &mut later);
    for (begun, also) in all.0.iter_mut().zip(later.0) {
        *begun |= also;
    }
    Measured {
        number: first.number.max(second.number),
        cycles: first.cycles + second.cycles,
        addresses: all.count(),
        records: (first.written + second.written) / 8,
        later_addresses: later.count(),
        later_records: second.written / 8,
    }
}

fn main() {
    let words: Vec<u32> = env::args()
        .skip(1)
        .map(|word| word.parse().expect("a seed"))
        .collect();
    let [first, last] = words[..] else {
        return eprintln!("seeds FIRST LAST");
    };
    // A load of R-4 never resets, so that OCD, 16 bytes in two cycles, writes the most.
    let mut log = vec![0; 8 * CYCLES as usize + 8];
    let mut ends = [0; 256];
    println!("seed addresses records, after the schedule's last record: addresses records");
    for seed in first..=last {
        let load = measure(seed, &mut log);
        ends[usize::from(load.number)] += 1;
        if load.number == 0 {
            assert_eq!(load.cycles, CYCLES);
            println!(
                "{seed} {} {} {} {}",
                load.addresses, load.records, load.later_addresses, load.later_records
            );
        }
    }
    println!(
        "run ten million cycles: {}; stop with 22: {}; with 23: {}",
        ends[0], ends[22], ends[23]
    );
}

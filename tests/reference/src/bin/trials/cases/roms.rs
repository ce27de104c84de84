//! Runs on ROMs of the generator, and long runs of programs.

use reference::case::{Case, FEW_JCP, FEW_JUMPS, INSIDE, NO_PORTS, NO_STOPS};
use reference::draw::Draw;
use reference::load;
use reference::Coverage;

/// Seeds of request R-4 whose loads run ten million cycles, as tests/speed has them.
const SEEDS: [u32; 16] = [
    0, 1, 2, 3, 4, 5, 6, 7, 8, 9, 385, 598, 1_410, 1_846, 1_918, 2_265,
];

/// A ROM on which a run goes on and comes round by many ways.
const LASTING: u8 = NO_STOPS | FEW_JCP | INSIDE | FEW_JUMPS;

/// Entries of four bytes that end with RT or RTS, and JPA in the page's last byte.
#[rustfmt::skip]
const TABLE: [u8; 64] = [
    0x48, 0x00, 0x00, 0x00, 0x49, 0x00, 0x00, 0x00, 0x33, 0x00, 0x48, 0x00, 0x1D, 0x00, 0x48, 0x00,
    0x3C, 0x00, 0x48, 0x00, 0x49, 0x00, 0x00, 0x00, 0x09, 0x00, 0x48, 0x00, 0x1A, 0x48, 0x00, 0x00,
    0x2D, 0x00, 0x48, 0x00, 0x30, 0x48, 0x00, 0x00, 0x19, 0x49, 0x00, 0x00, 0x4F, 0x48, 0x00, 0x00,
    0x4C, 0x48, 0x00, 0x00, 0x10, 0x49, 0x00, 0x00, 0x06, 0x48, 0x00, 0x00, 0x08, 0x00, 0x48, 0x41,
];

pub fn cases() -> Vec<Case> {
    let mut cases = Vec::new();
    for place in 0..30 {
        cases.push(any_rom(place));
    }
    for place in 0..40 {
        cases.push(lasting(place, 20_000, 65_536, 0));
    }
    for place in 40..46 {
        cases.push(lasting(place, 1_500_000, 65_536, NO_PORTS));
    }
    cases.extend(SEEDS.map(of_seed));
    cases.extend(waits());
    cases.extend(interrupts_and_calls());
    cases
}

/// Request R-4's ROM and full schedule of a seed. Its last record is before cycle 2^20.
fn of_seed(seed: u32) -> Case {
    Case::new(format!("the load of seed {seed}"))
        .rom(0, &load::rom(seed))
        .made_schedule(40_960, 0, 0, 0)
        .schedule_bytes(0, &load::schedule(seed, 4_096))
        .log(65_536)
        .n(1_200_000)
}

/// Bytes as the generator makes them: these runs soon stop or go round in a small loop.
fn any_rom(place: u64) -> Case {
    let mut draw = Draw::new(2_000 + place);
    Case::new(format!("any ROM {place}"))
        .made_rom(draw.seed(), draw.of(&[0, NO_STOPS]))
        .made_schedule(1_000, draw.seed(), 30, 0)
        .log(4_000)
        .n(2_000)
}

/// A ROM drawn until a run on it executes many codes.
fn lasting(place: u64, n: u64, log: u32, filter: u8) -> Case {
    let mut draw = Draw::new(3_000 + place);
    loop {
        let case = Case::new(format!("ROM {place} of many codes"))
            .made_rom(draw.seed(), LASTING | filter)
            .made_ram(draw.seed())
            .made_schedule(40_960, draw.seed(), (n / 2_048) as u16 + 1, 0)
            .log(log)
            .n(n);
        if many_codes(&case) {
            return case;
        }
    }
}

fn many_codes(case: &Case) -> bool {
    let mut coverage = Coverage::new();
    case.clone().n(20_000).run(&mut coverage);
    let both = coverage.plain.iter().zip(&coverage.skipped);
    both.filter(|(&plain, &skipped)| plain + skipped > 20)
        .count()
        > 90
}

/// Long runs of programs that count, wait, and show it at the ports now and then.
fn waits() -> Vec<Case> {
    vec![
        // A counter of four words: INM in columns 0 to 3, OCD and OE where it comes round.
        Case::new("a counter in RAM")
            .rom(0, &[0x80, 0x1D, 0xC0, 0x81, 0x1D, 0xC0, 0x82, 0x1D, 0xC0])
            .rom(9, &[0x1E, 0x3C, 0x83, 0x1D, 0xC0, 0x38, 0x44, 0xC0])
            .log(65_536)
            .n(3_000_000)
            .ends(0),
        // STM of the longest interval, wait, count and show.
        Case::new("waits for the timer")
            .rom(0, &[0x14, 0xBF, 0x05, 0xC2, 0x0D, 0x00, 0x44, 0xC0])
            .log(65_536)
            .n(2_000_000)
            .ends(0),
        // Two short intervals in turn.
        Case::new("short waits")
            .rom(
                0,
                &[
                    0x14, 0x00, 0x05, 0xC2, 0x14, 0x07, 0x05, 0xC6, 0x1D, 0xC0, 0x71, 0xC0,
                ],
            )
            .with(|state| state.dpl = 4)
            .log(65_536)
            .n(1_000_000)
            .ends(0),
    ]
}

fn interrupts_and_calls() -> Vec<Case> {
    vec![
        // Interrupts: the answer counts them and shows the lines A and B.
        Case::new("answers to interrupts")
            .rom(0, &[0x31, 0x00, 0x20, 0x33, 0x13, 0xC1, 0xC1])
            .rom(
                0x3C,
                &[0x4A, 0x0D, 0x00, 0x44, 0x4A, 0x40, 0x44, 0x31, 0x48],
            )
            .made_schedule(40_960, 4_242, 700, 100)
            .log(65_536)
            .n(1_500_000)
            .ends(0),
        // Calls three deep, a table of 16 entries by JPA, returns that skip.
        Case::new("calls and tables")
            .rom(0x000, &[0xA9, 0x00, 0x00, 0x0D, 0xC0, 0x44, 0xC0])
            .rom(0x100, &[0xAA, 0x40, 0x00, 0x49])
            .rom(0x240, &[0xAB, 0xBF, 0x1D, 0x00, 0x49])
            .rom(0x380, &TABLE)
            .made_ram(11)
            .log(65_536)
            .n(1_500_000)
            .ends(0),
    ]
}

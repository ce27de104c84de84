//! Schedules with edges at awkward cycles: within instructions of two cycles, within skips, between
//! EI and the next instruction, at acceptance; and lines read in the cycle in which they change.

use reference::case::Case;
use reference::draw::Draw;

const CYCLES: u64 = 40;

/// EI, FBF that skips CI, NOP, TIT, two LDI, STM, TTM, EI twice, OE, TIT, DI, TIT, EI, JMP 000.
const PROGRAM: [u8; 23] = [
    0x31, 0x20, 0x17, 0x00, 0x00, 0x03, 0x00, 0x15, 0x23, 0x15, 0x45, 0x14, 0x80, 0x05, 0x31, 0x31,
    0x44, 0x03, 0x01, 0x03, 0x31, 0xA0, 0x00,
];

/// At 03C: INC, OE, EI, RT.
const ANSWER: [u8; 4] = [0x0D, 0x44, 0x31, 0x48];

pub fn cases() -> Vec<Case> {
    let mut cases = Vec::new();
    for fall in 0..30 {
        cases.push(pulses(fall, &[0]));
    }
    for fall in 0..24 {
        cases.push(pulses(fall, &[0, 2]));
        cases.push(pulses(fall, &[0, 3, 5]));
    }
    cases.extend(levels());
    cases.extend(reading());
    cases.extend(distant());
    cases.extend(within_a_full_schedule());
    cases
}

fn program(name: String) -> Case {
    Case::new(name)
        .rom(0, &PROGRAM)
        .rom(0x3C, &ANSWER)
        .log(256)
        .n(CYCLES)
        .ends(0)
}

/// Pulses of one cycle, so many cycles after the first.
fn pulses(first: u64, later: &[u64]) -> Case {
    let mut records = Vec::new();
    for after in later {
        records.push((first + after, 0, 0, 0));
        records.push((first + after + 1, 0, 0, 1));
    }
    records.dedup_by_key(|record| record.0);
    program(format!("pulses of INT from cycle {first}, at {later:?}")).schedule(&records)
}

/// Levels seen before the run, and none at all.
fn levels() -> Vec<Case> {
    let mut cases = Vec::new();
    for level in [0, 1] {
        for first in [0, 1] {
            for at in [0, 1, 5] {
                let name = format!("level {level} seen, INT {first} from cycle {at}");
                let case = program(name).with(|state| state.level = level);
                cases.push(case.schedule(&[(at, 0, 0, first), (at + 9, 0, 0, 1 - first)]));
            }
        }
        let name = format!("level {level} seen, no schedule");
        cases.push(program(name).with(|state| state.level = level));
    }
    cases
}

/// IA, IP, TPA and TPB with lines that change just before, in and just after their cycle.
fn reading() -> Vec<Case> {
    let mut cases = Vec::new();
    for (name, code, dpl) in [
        ("IA", 0x40, 0),
        ("IP of A", 0x32, 0),
        ("IP of B", 0x32, 1),
        ("IP of C", 0x32, 2),
        ("IP of D", 0x32, 3),
        ("TPA", 0x55, 0),
        ("TPB of A", 0x51, 0),
        ("TPB of B", 0x51, 1),
        ("TPB of C", 0x51, 2),
        ("TPB of D", 0x51, 3),
    ] {
        for at in [2, 3, 4] {
            cases.push(
                Case::new(format!("{name} in cycle 3, lines from {at}"))
                    .rom(3, &[code, 0x00, 0x44])
                    .with(|state| state.dpl = dpl)
                    .schedule(&[(1, 0x21, 0x84, 1), (at, 0xC6, 0x3A, 1), (at + 1, 0, 0, 1)])
                    .n(8)
                    .ends(0),
            );
        }
    }
    cases
}

/// Runs that begin at other cycles than 0, with records before, at and after.
fn distant() -> Vec<Case> {
    let mut cases = Vec::new();
    let mut draw = Draw::new(31);
    for from in [
        1,
        255,
        256,
        65_535,
        1 << 24,
        (1 << 32) - 3,
        1 << 40,
        (1 << 48) - 60,
    ] {
        for before in [0, 1, 90] {
            let first = u64::saturating_sub(from, before);
            cases.push(
                program(format!("from cycle {from}, records from {first}"))
                    .with(|state| state.cycle = from)
                    .made_schedule(160, draw.seed(), 6, first),
            );
        }
    }
    cases
}

/// Runs that begin before, within and after 4,096 records, which end near cycle 83,000.
fn within_a_full_schedule() -> Vec<Case> {
    let mut cases = Vec::new();
    for from in [0, 999, 1_000, 1_001, 42_000, 82_000, 90_000] {
        cases.push(
            program(format!("from cycle {from}, 4,096 records"))
                .with(|state| state.cycle = from)
                .made_schedule(40_960, 1_978, 40, 1_000)
                .log(20_000)
                .n(3_000),
        );
    }
    cases
}

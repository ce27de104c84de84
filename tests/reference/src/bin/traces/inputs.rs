//! The inputs: each refusal that a trace can have, each stop, and what the lines of a text can hold.
//!
//! 34 and 2 refuse no trace: the fresh state is sound, and its cycle number, 0, plus an n of 4 bytes
//! stays far below 2^48 - 1.

use reference::case::{lines as lines_of, panel, record, schedule, LinesFrom};
use reference::kinds::Kind;
use reference::maker;

/// An input, and the last line of its text.
pub struct Input {
    pub name: String,
    pub bytes: Vec<u8>,
    pub last: &'static str,
}

/// OCD, LI, OE and a code that is no instruction: document 01's example.
const EXAMPLE: [u8; 5] = [0x1E, 0xA5, 0x93, 0x44, 0x1C];

pub const KINDS: [Kind<Input>; 10] = [
    ("short", short),
    ("schedule_lengths", schedule_lengths),
    ("records", records),
    ("finishes", finishes),
    ("full_logs", full_logs),
    ("stops", stops),
    ("lines", lines),
    ("samples", samples),
    ("long", long),
    ("resets", resets),
];

/// RES high for so many cycles, each so many cycles, from this one on.
fn pulses(first: u64, each: u64, high: u64, count: u64) -> Vec<u8> {
    let pulse = |k: u64| {
        let from = first + each * k;
        [(from, 0, 0, 1, 1), (from + high, 0, 0, 1, 0)]
    };
    let records: Vec<LinesFrom> = (0..count).flat_map(pulse).collect();
    lines_of(&records)
}

/// The record of a reset has the letter R, and a full log stops a run before it.
fn resets() -> Vec<Input> {
    // LI 3, OE, and NOPs.
    let of = |name: &str, n: u32, schedule: &[u8], last| {
        input(name, n, &[(0, &[0x93, 0x44])], schedule, last)
    };
    // OCD C3, JCP 002: two records behind each reset.
    let ocd: (usize, &[u8]) = (0, &[0x1E, 0xC3, 0xC2]);
    let held = lines_of(&[(20, 0, 0, 1, 1)]);
    vec![
        of(
            "RES high for three cycles",
            50,
            &pulses(10, 100, 3, 1),
            "end 50 49 0",
        ),
        of(
            "RES high for four cycles",
            50,
            &pulses(10, 100, 4, 1),
            "end 50 47 0",
        ),
        of(
            "RES high for five cycles",
            50,
            &pulses(10, 100, 5, 1),
            "end 50 46 0",
        ),
        of(
            "RES high from cycle 0 on",
            9,
            &pulses(0, 100, 5, 1),
            "end 9 5 0",
        ),
        of(
            "many resets",
            5_000,
            &pulses(10, 9, 4, 500),
            "end 5000 3998 0",
        ),
        of("held in reset", 1_000_000, &held, "end 1000000 22 0"),
        input(
            "a reset meets a full log",
            20_000,
            &[ocd],
            &pulses(5, 10, 4, 2_048),
            "end 6828 5463 3",
        ),
        input(
            "OE after a reset meets a full log",
            20_000,
            &[(0, &[0x44, 0xC2])],
            &pulses(5, 10, 4, 2_048),
            "end 10239 8191 3",
        ),
        sample("reset", "end 700 577 0"),
        sample("res", "refused 13"),
    ]
}

/// Schedules of 40 KB and more, some of them longer than the program's buffer of 65,536 bytes. The records
/// rise, and no two neighbours are alike.
fn long() -> Vec<Input> {
    let records: Vec<u8> = (0..20_000)
        .flat_map(|k| record(k, (37 * k) as u8, 0, 1))
        .collect();
    // IA, OE and JCP 000: line A of every fifth cycle, the last record's among them.
    let of = |name: &str, schedule: &[u8], last| {
        input(name, 5_000, &[(0, &[0x40, 0x44, 0xC0])], schedule, last)
    };
    let of_length = |length: usize, last| {
        let name = format!("a schedule of {length} bytes that rises");
        of(&name, &records[..length], last)
    };
    let mut damaged = records[..40_960].to_vec();
    damaged[40_959] = 2;
    vec![
        of_length(40_950, "end 5000 3000 0"),
        of_length(40_959, "refused 11"),
        of_length(40_960, "end 5000 3000 0"),
        of(
            "a full schedule with a last byte of 2",
            &damaged,
            "refused 13",
        ),
        of_length(40_961, "refused 12"),
        of_length(40_970, "refused 12"),
        of_length(60_000, "refused 12"),
        of_length(63_531, "refused 12"),
        of_length(63_532, "refused 12"),
        of_length(63_533, "refused 12"),
        of_length(200_000, "refused 12"),
        sample("long", "refused 12"),
    ]
}

/// A panel of samples/; tests/compare holds the text that stands beside it.
fn sample(name: &str, last: &'static str) -> Input {
    Input {
        name: format!("sample {name}"),
        bytes: maker::sample(&format!("{name}.panel")),
        last,
    }
}

fn samples() -> Vec<Input> {
    [
        ("lamp", "end 200 131 0"),
        ("call", "end 100 92 0"),
        ("blink", "end 1500 1489 0"),
        ("keys", "end 140 116 0"),
        ("table", "end 120 81 0"),
        ("short", "refused 21"),
        ("order", "refused 14"),
        ("level", "refused 13"),
        ("torn", "refused 11"),
        ("lobby", "end 1200 1000 0"),
    ]
    .map(|(name, last)| sample(name, last))
    .into()
}

fn input(
    name: &str,
    n: u32,
    code: &[(usize, &[u8])],
    schedule: &[u8],
    last: &'static str,
) -> Input {
    Input {
        name: name.to_string(),
        bytes: panel(n, code, schedule),
        last,
    }
}

fn example(name: &str, n: u32, schedule: &[u8], last: &'static str) -> Input {
    input(name, n, &[(0, &EXAMPLE)], schedule, last)
}

/// "under 2,004 bytes being 21"
fn short() -> Vec<Input> {
    let whole = example("the example", 10, &[], "end 5 3 23");
    let mut inputs = Vec::new();
    for length in [0, 1, 3, 4, 5, 2_000, 2_003] {
        inputs.push(Input {
            name: format!("the example's first {length} bytes"),
            bytes: whole.bytes[..length].to_vec(),
            last: "refused 21",
        });
    }
    inputs.push(whole);
    inputs
}

/// "12 over 40,960 bytes; 11 length no multiple of 10"
fn schedule_lengths() -> Vec<Input> {
    let of_length = |length: usize, last| {
        let name = format!("a schedule of {length} zeros");
        example(&name, 10, &vec![0; length], last)
    };
    let mut full = Vec::new();
    for place in 0..4_096 {
        full.extend(record(3 * place, place as u8, 0, 1));
    }
    let mut inputs = vec![
        of_length(1, "refused 11"),
        of_length(9, "refused 11"),
        of_length(10, "end 5 3 23"),
        of_length(11, "refused 11"),
        of_length(40_950, "refused 14"),
        of_length(40_959, "refused 11"),
        of_length(40_960, "refused 14"),
        of_length(40_961, "refused 12"),
        of_length(40_970, "refused 12"),
        of_length(63_532, "refused 12"),
    ];
    // IA, OE and JCP 000: line A of every fifth cycle.
    inputs.push(input(
        "a full schedule",
        12_400,
        &[(0, &[0x40, 0x44, 0xC0])],
        &full,
        "end 10242 6145 3",
    ));
    inputs
}

/// "then by record 13 bad INT or last byte, 14 cycle not above the last"
fn records() -> Vec<Input> {
    let of = |name: &str, records: &[(u64, u8, u8)], last| {
        let mut schedule = Vec::new();
        for &(cycle, int, end) in records {
            let mut bytes = record(cycle, 0, 0, int);
            bytes[9] = end;
            schedule.extend(bytes);
        }
        example(name, 10, &schedule, last)
    };
    vec![
        of(
            "records that rise",
            &[(0, 1, 0), (1, 0, 0), (1 << 40, 1, 0)],
            "end 5 3 23",
        ),
        of("INT level 2", &[(0, 2, 0)], "refused 13"),
        of("a last byte of 2", &[(0, 1, 0), (4, 0, 2)], "refused 13"),
        of("a last byte of 1", &[(0, 1, 0), (4, 0, 1)], "end 5 3 23"),
        of("a cycle twice", &[(7, 1, 0), (7, 0, 0)], "refused 14"),
        of(
            "a cycle that falls",
            &[(0, 1, 0), (256, 0, 0), (255, 1, 0)],
            "refused 14",
        ),
        of(
            "13 and 14 in one record",
            &[(7, 1, 0), (7, 9, 0)],
            "refused 13",
        ),
        of(
            "14, then 13",
            &[(7, 1, 0), (7, 0, 0), (8, 9, 0)],
            "refused 14",
        ),
    ]
}

/// "n = 0 finishes"; the last cycle before a stop.
fn finishes() -> Vec<Input> {
    vec![
        example("no cycle", 0, &[], "end 0 0 0"),
        example("one cycle, two records", 1, &[], "end 1 1 0"),
        example("up to the stop", 5, &[], "end 5 3 0"),
        example("one cycle more", 6, &[], "end 5 3 23"),
        example("n of four bytes", u32::MAX, &[], "end 5 3 23"),
        input("NOPs", 70_000, &[], &[], "end 70000 70000 0"),
    ]
}

/// 16,384 bytes: 2,048 records, and 8 bytes left where an OCD is due.
fn full_logs() -> Vec<Input> {
    vec![
        // OE, JCP 000.
        input(
            "a full log",
            100_000,
            &[(0, &[0x44, 0xC0])],
            &[],
            "end 6144 4096 3",
        ),
        // OE, then OCD and JCP 001.
        input(
            "a log with 8 bytes left",
            100_000,
            &[(0, &[0x44, 0x1E, 0x9C, 0xC1])],
            &[],
            "end 3071 2047 3",
        ),
    ]
}

/// 22 and 23.
fn stops() -> Vec<Input> {
    vec![
        input(
            "code 45",
            10,
            &[(0, &[0x9F, 0x44, 0x45])],
            &[],
            "end 3 2 23",
        ),
        input("code 1C first", 10, &[(0, &[0x1C])], &[], "end 0 0 23"),
        input("JMP 7D0", 10, &[(0, &[0xA7, 0xD0])], &[], "end 2 1 22"),
        input(
            "JMP 7CF, where an OCD begins",
            10,
            &[(0, &[0xA7, 0xCF]), (0x7CF, &[0x1E])],
            &[],
            "end 2 1 22",
        ),
        input(
            "a skip at 7CF",
            10,
            &[(0, &[0x1B, 0xA7, 0xCF]), (0x7CF, &[0x04])],
            &[],
            "end 3 2 22",
        ),
    ]
}

/// Every port, every value, cycles of one to seven digits, lines, an interrupt and the timer.
fn lines() -> Vec<Input> {
    let mut ports = vec![0x9F];
    for port in 0..16 {
        ports.extend([0x80 + port, 0x0E]);
    }
    let mut values = Vec::new();
    for value in 0..16 {
        values.extend([0x90 + value, 0x44]);
    }
    let fall = schedule(&[(0, 0xC3, 0, 1), (20, 0xA5, 0, 0)]);
    vec![
        input("OP to every port", 33, &[(0, &ports)], &[], "end 33 33 0"),
        input("every value", 48, &[(0, &values)], &[], "end 48 32 0"),
        // LDZ 4, SPB and RPB of every bit; LDZ 8, the same, where bit 3 has no effect.
        input(
            "single bits",
            60,
            &[(
                0,
                &[
                    0x84, 0x70, 0x71, 0x72, 0x73, 0x60, 0x61, 0x62, 0x63, 0x88, 0x70, 0x71, 0x72,
                    0x73, 0x63, 0x1C,
                ],
            )],
            &[],
            "end 15 15 23",
        ),
        // EI, JCP 001; at 03C IA, OE, LDZ 1, IP, OE, EI, RT.
        input(
            "an interrupt",
            60,
            &[
                (0, &[0x31, 0xC1]),
                (0x3C, &[0x40, 0x44, 0x81, 0x32, 0x44, 0x31, 0x48]),
            ],
            &fall,
            "end 60 55 0",
        ),
        // STM BF, TTM, JCP 002, INC, NOP, OE, JCP 000.
        input(
            "the longest timer",
            3_000_000,
            &[(0, &[0x14, 0xBF, 0x05, 0xC2, 0x0D, 0x00, 0x44, 0xC0])],
            &[],
            "end 3000000 2997727 0",
        ),
    ]
}

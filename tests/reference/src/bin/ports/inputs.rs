//! The inputs: each refusal and each stop, and logs that are longer than trace's 16,384 bytes, than a
//! buffer of 65,536 bytes, or fill it.

use reference::case::{lines, panel, record, Case, FEW_JCP, FEW_JUMPS, INSIDE, NO_STOPS};
use reference::kinds::{all_of, Kind};
use reference::maker::sample;

/// How the run of a panel ends.
#[derive(Clone, Copy, PartialEq, Eq, Debug)]
pub enum End {
    /// A refusal's number.
    Refused(u8),
    /// The records of the log, and 0 or the number of the stop.
    Records(usize, u8),
    /// It finishes, with 1,000 records or more.
    Many,
}

impl End {
    pub fn number(self) -> u8 {
        match self {
            End::Refused(number) | End::Records(_, number) => number,
            End::Many => 0,
        }
    }

    /// Whether a run that ended so ends as it has to.
    pub fn fits(self, end: End) -> bool {
        match (self, end) {
            (End::Many, End::Records(records, 0)) => records >= 1_000,
            _ => self == end,
        }
    }
}

pub struct Input {
    pub name: String,
    pub bytes: Vec<u8>,
    pub end: End,
}

/// A ROM on which a run goes on and comes round by many ways.
const LASTING: u8 = NO_STOPS | FEW_JCP | INSIDE | FEW_JUMPS;

/// OCD, LI, OE and a code that is no instruction: document 01's example.
const EXAMPLE: [u8; 5] = [0x1E, 0xA5, 0x93, 0x44, 0x1C];

/// OE and JCP 000: a record every three cycles.
const OE_LOOP: [u8; 2] = [0x44, 0xC0];

/// IA, OE and JCP 000: line A of every fifth cycle.
const LINE_LOOP: [u8; 3] = [0x40, 0x44, 0xC0];

pub const KINDS: [Kind<Input>; 8] = [
    ("samples", samples),
    ("short", short),
    ("finishes", finishes),
    ("schedules", schedules),
    ("long_logs", long_logs),
    ("stops", stops),
    ("drawn", drawn),
    ("resets", resets),
];

/// Resets: a few, as many as a schedule can tell, and for ever; where a log of 65,536 bytes is full.
fn resets() -> Vec<Input> {
    let pulses = |high: u64, count: u64| {
        let pulse = |k: u64| [(10 * k + 5, 0, 0, 1, 1), (10 * k + 5 + high, 0, 0, 1, 0)];
        lines(&(0..count).flat_map(pulse).collect::<Vec<_>>())
    };
    let held = lines(&[(20, 0, 0, 1, 1)]);
    let drawn = Case::new("any ROM 1039 with resets")
        .made_rom(1_039, LASTING)
        .made_schedule(40_000, 1_039, 40, 0)
        .resets(9);
    let bytes = [
        200_000_u32.to_be_bytes().to_vec(),
        drawn.made_rom_bytes(),
        drawn.made_schedule_bytes(),
    ];
    vec![
        input(
            "no reset in three cycles",
            panel(30_000, &[], &pulses(3, 2_048)),
            End::Records(0, 0),
        ),
        input(
            "2,048 resets",
            panel(30_000, &[], &pulses(4, 2_048)),
            End::Records(2_048, 0),
        ),
        // OCD C3, OCD 3C and JCP 002: six records behind each reset, and nine in all.
        input(
            "resets between OCDs",
            panel(
                30_000,
                &[(0, &[0x1E, 0xC3, 0x1E, 0x3C, 0xC2])],
                &pulses(4, 2_048),
            ),
            End::Many,
        ),
        input(
            "held in reset",
            panel(300_000, &[(0, &OE_LOOP)], &held),
            End::Records(9, 0),
        ),
        input("sample reset", sample("reset.panel"), End::Records(8, 0)),
        input("sample res", sample("res.panel"), End::Refused(13)),
        input(&drawn.name, bytes.concat(), End::Many),
    ]
}

pub fn all() -> Vec<Input> {
    all_of(&KINDS)
}

pub fn example(n: u32, schedule: &[u8]) -> Vec<u8> {
    panel(n, &[(0, &EXAMPLE)], schedule)
}

fn input(name: &str, bytes: Vec<u8>, end: End) -> Input {
    Input {
        name: name.to_string(),
        bytes,
        end,
    }
}

fn samples() -> Vec<Input> {
    [
        ("lamp", End::Records(2, 0)),
        ("call", End::Records(2, 0)),
        ("blink", End::Records(5, 0)),
        ("lobby", End::Records(11, 0)),
        ("short", End::Refused(21)),
        ("order", End::Refused(14)),
        ("level", End::Refused(13)),
        ("torn", End::Refused(11)),
        ("long", End::Refused(12)),
    ]
    .map(|(name, end)| {
        let bytes = sample(&format!("{name}.panel"));
        input(&format!("sample {name}"), bytes, end)
    })
    .into()
}

/// "under 2,004 bytes being 21"
fn short() -> Vec<Input> {
    let whole = example(10, &[]);
    let mut inputs = Vec::new();
    for length in [0, 1, 3, 4, 2_000, 2_003] {
        let name = format!("the example's first {length} bytes");
        inputs.push(input(&name, whole[..length].to_vec(), End::Refused(21)));
    }
    inputs.push(input("the example", whole, End::Records(3, 23)));
    inputs
}

fn finishes() -> Vec<Input> {
    vec![
        input("no cycle", example(0, &[]), End::Records(0, 0)),
        input(
            "one cycle, two records",
            example(1, &[]),
            End::Records(2, 0),
        ),
        input(
            "n of four bytes",
            example(u32::MAX, &[]),
            End::Records(3, 23),
        ),
        input("no record", panel(70_000, &[], &[]), End::Records(0, 0)),
    ]
}

/// "12 over 40,960 bytes; 11 length no multiple of 10; then by record 13 bad INT or last byte, 14 cycle
/// not above the last"
fn schedules() -> Vec<Input> {
    let records: Vec<u8> = (0..20_000)
        .flat_map(|k| record(k, (37 * k) as u8, 0, 1))
        .collect();
    let of_length = |length: usize, end| {
        let name = format!("a schedule of {length} bytes that rises");
        let bytes = panel(5_000, &[(0, &LINE_LOOP)], &records[..length]);
        input(&name, bytes, end)
    };
    let of = |name: &str, schedule: &[u8], number| {
        input(name, example(10, schedule), End::Refused(number))
    };
    let twice = [record(7, 0, 0, 1), record(7, 0, 0, 0)].concat();
    let falls = [record(256, 0, 0, 1), record(255, 0, 0, 0)].concat();
    let both = [record(7, 0, 0, 1), record(7, 0, 0, 9)].concat();
    let mut ended = record(7, 0, 0, 1);
    ended[9] = 2;
    vec![
        of_length(10, End::Records(1_000, 0)),
        of_length(40_950, End::Records(1_000, 0)),
        of_length(40_959, End::Refused(11)),
        of_length(40_960, End::Records(1_000, 0)),
        of_length(40_961, End::Refused(12)),
        of_length(40_970, End::Refused(12)),
        of_length(63_531, End::Refused(12)),
        of_length(63_532, End::Refused(12)),
        of_length(63_533, End::Refused(12)),
        of_length(200_000, End::Refused(12)),
        of("a schedule of 1 byte", &[0], 11),
        of(
            "a schedule of 9 bytes with an INT level of 9",
            &both[..19],
            11,
        ),
        of("INT level 2", &record(0, 0, 0, 2), 13),
        of("RES 2", &ended, 13),
        of("13 and 14 in one record", &both, 13),
        of("a cycle twice", &twice, 14),
        of("a cycle that falls", &falls, 14),
    ]
}

/// Past 16,384 and 65,536 bytes; where 8 bytes are left there, and an OCD is due.
fn long_logs() -> Vec<Input> {
    let oe = |n: u32, records| {
        let name = format!("OE in a loop, {records} records");
        let bytes = panel(n, &[(0, &OE_LOOP)], &[]);
        input(&name, bytes, End::Records(records, 0))
    };
    // Every OP: LI 15, then LDZ 2 to 8 with an OP each, CMA, JCP 001: 7 records in 16 cycles.
    let mut ports = vec![0x9F];
    for port in 2..=8 {
        ports.extend([0x80 + port, 0x0E]);
    }
    ports.extend([0x10, 0xC1]);
    vec![
        oe(6_144, 2_048),
        oe(6_145, 2_049),
        oe(24_573, 8_191),
        oe(24_576, 8_192),
        oe(24_577, 8_193),
        oe(200_000, 66_667),
        // OCD C3 and JCP 000.
        input(
            "OCD in a loop",
            panel(20_000, &[(0, &[0x1E, 0xC3, 0xC0])], &[]),
            End::Records(13_334, 0),
        ),
        // OE, then OCD 9C and JCP 001.
        input(
            "OE, then OCD in a loop",
            panel(30_000, &[(0, &[0x44, 0x1E, 0x9C, 0xC1])], &[]),
            End::Records(20_001, 0),
        ),
        input(
            "OP to every port in a loop",
            panel(40_001, &[(0, &ports)], &[]),
            End::Records(17_500, 0),
        ),
    ]
}

/// 22 and 23: at once, after a few records, and behind a long log.
fn stops() -> Vec<Input> {
    // INC, NOP, OE so many times, and a count of 16 times 16 times 16 in words 0 to 2; then the end.
    let counted = |writes: usize, end: &[u8]| {
        let mut code = vec![0x0D, 0x00];
        code.extend(vec![0x44; writes]);
        code.extend([0x80, 0x1D, 0xC0, 0x81, 0x1D, 0xC0, 0x82, 0x1D, 0xC0]);
        code.extend(end);
        panel(1_000_000, &[(0, &code)], &[])
    };
    vec![
        input(
            "code 1C first",
            panel(10, &[(0, &[0x1C])], &[]),
            End::Records(0, 23),
        ),
        input(
            "LI 15, OE, code 45",
            panel(10, &[(0, &[0x9F, 0x44, 0x45])], &[]),
            End::Records(1, 23),
        ),
        input(
            "OE, JMP 7D0",
            panel(10, &[(0, &[0x44, 0xA7, 0xD0])], &[]),
            End::Records(1, 22),
        ),
        input(
            "JMP 7CF, where an OCD begins",
            panel(10, &[(0, &[0xA7, 0xCF]), (0x7CF, &[0x1E])], &[]),
            End::Records(0, 22),
        ),
        input(
            "JMP 7D0 behind 4,096 records",
            counted(1, &[0xA7, 0xD0]),
            End::Records(4_096, 22),
        ),
        input(
            "code 1C behind 8,192 records",
            counted(2, &[0x1C]),
            End::Records(8_192, 23),
        ),
        input(
            "code 45 behind 12,288 records",
            counted(3, &[0x45]),
            End::Records(12_288, 23),
        ),
    ]
}

/// The timer, interrupts and any code for up to 200,000 cycles: whatever a state holds is carried on.
fn drawn() -> Vec<Input> {
    let blink = sample("blink.panel");
    let longer = [&200_000_u32.to_be_bytes(), &blink[4..]].concat();
    let of_case = |n: u32, case: Case| {
        let bytes = [
            n.to_be_bytes().to_vec(),
            case.made_rom_bytes(),
            case.made_schedule_bytes(),
        ];
        input(&case.name, bytes.concat(), End::Many)
    };
    let any = |seed: u32, n| {
        let case = Case::new(format!("any ROM {seed}"))
            .made_rom(seed, LASTING)
            .made_schedule(40_000, seed, 40, 0);
        of_case(n, case)
    };
    // EI, NOP, JCP 001; at 03C INC Z, OE, EI, RT.
    let interrupts = Case::new("interrupts")
        .rom(0, &[0x31, 0x00, 0xC1])
        .rom(0x3C, &[0x4A, 0x0D, 0x00, 0x4A, 0x44, 0x31, 0x48])
        .made_schedule(40_960, 546, 48, 5);
    vec![
        input("blink for longer", longer, End::Records(772, 0)),
        of_case(100_000, interrupts),
        any(1_039, 200_000),
        any(1_040, 99_999),
        any(1_041, 150_001),
        any(1_074, 100_000),
    ]
}

//! The inputs: each end of a walk, each kind of line, the middle of instructions, and panels that are drawn.

use reference::case::{lines, panel, schedule, Case, FEW_JCP, FEW_JUMPS, INSIDE, NO_STOPS};
use reference::draw::Draw;
use reference::kinds::Kind;
use reference::maker;

/// An input, and how the last line of its text begins.
pub struct Input {
    pub name: String,
    pub bytes: Vec<u8>,
    pub last: String,
}

pub const KINDS: [Kind<Input>; 7] = [
    ("samples", samples),
    ("ends", ends),
    ("stops", stops),
    ("middles", middles),
    ("late", late),
    ("refused", refused),
    ("drawn", drawn),
];

fn input(name: &str, from: u64, to: u64, panel: &[u8], last: &str) -> Input {
    Input {
        name: String::from(name),
        bytes: [&from.to_be_bytes()[..], &to.to_be_bytes(), panel].concat(),
        last: String::from(last),
    }
}

fn sample(name: &str, from: u64, to: u64, last: &str) -> Input {
    let bytes = maker::sample(&format!("{name}.panel"));
    input(
        &format!("sample {name} {from} {to}"),
        from,
        to,
        &bytes,
        last,
    )
}

fn samples() -> Vec<Input> {
    vec![
        sample("lamp", 0, 20, "end at cycle 20 of 200: the walk"),
        sample("lamp", 180, 220, "end at cycle 200 of 200: the panel"),
        sample("call", 0, 100, "end at cycle 100 of 100: the panel"),
        sample("blink", 0, 1_500, "end at cycle 1500 of 1500: the panel"),
        sample("keys", 0, 140, "end at cycle 140 of 140: the panel"),
        sample("table", 0, 120, "end at cycle 120 of 120: the panel"),
        sample("lobby", 0, 1_200, "end at cycle 1200 of 1200: the panel"),
        sample("reset", 0, 700, "end at cycle 700 of 700: the panel"),
        sample("rush", 250, 650, "end at cycle 650 of 900: the walk"),
    ]
}

/// OCD, LI, OE and a code that is no instruction: document 01's example.
const EXAMPLE: [u8; 5] = [0x1E, 0xA5, 0x93, 0x44, 0x1C];

fn ends() -> Vec<Input> {
    let nops = |n: u32| panel(n, &[], &[]);
    vec![
        input(
            "no cycles",
            0,
            20,
            &nops(0),
            "end at cycle 0 of 0: the panel",
        ),
        input(
            "one cycle",
            0,
            20,
            &nops(1),
            "end at cycle 1 of 1: the panel",
        ),
        input(
            "no lines are asked for",
            7,
            7,
            &nops(9),
            "end at cycle 7 of 9: the walk",
        ),
        input(
            "TO before FROM",
            7,
            2,
            &nops(9),
            "end at cycle 7 of 9: the walk",
        ),
        input(
            "TO is the end",
            7,
            9,
            &nops(9),
            "end at cycle 9 of 9: the panel",
        ),
        input(
            "TO behind the end",
            7,
            90,
            &nops(9),
            "end at cycle 9 of 9: the panel",
        ),
        input(
            "FROM is the end",
            9,
            12,
            &nops(9),
            "end at cycle 9 of 9: the panel",
        ),
        input(
            "FROM behind the end",
            12,
            20,
            &nops(9),
            "end at cycle 9 of 9: the panel",
        ),
        input(
            "the highest numbers",
            u64::MAX,
            u64::MAX,
            &nops(9),
            "end at cycle 9 of 9: the panel",
        ),
        input(
            "the highest TO",
            0,
            u64::MAX,
            &nops(9),
            "end at cycle 9 of 9: the panel",
        ),
    ]
}

fn stops() -> Vec<Input> {
    let of = |name: &str, from: u64, code: &[(usize, &[u8])], last: &str| {
        input(name, from, from + 20, &panel(1_000, code, &[]), last)
    };
    let example: (usize, &[u8]) = (0, &EXAMPLE);
    let jump: (usize, &[u8]) = (0, &[0xA7, 0xCF]);
    vec![
        of(
            "the example",
            0,
            &[example],
            "stop 23 at cycle 5: the byte due at 004 is 1C,",
        ),
        of("its last cycle", 4, &[example], "stop 23 at cycle 5:"),
        of("from its stop on", 5, &[example], "stop 23 at cycle 5:"),
        of(
            "from behind its stop on",
            6,
            &[example],
            "stop 23 at cycle 5:",
        ),
        of(
            "from far behind its stop on",
            900,
            &[example],
            "stop 23 at cycle 5:",
        ),
        of(
            "code 45 first",
            0,
            &[(0, &[0x45])],
            "stop 23 at cycle 0: the byte due at 000 is 45,",
        ),
        of(
            "JMP 7D0",
            0,
            &[(0, &[0xA7, 0xD0])],
            "stop 22 at cycle 2: the instruction due at 7D0 ",
        ),
        of(
            "JMP 7CF, where an OCD begins",
            0,
            &[jump, (0x7CF, &[0x1E])],
            "stop 22 at cycle 2: the instruction due at 7CF ",
        ),
        of(
            "a skip at 7CF",
            0,
            &[(0, &[0x1B, 0xA7, 0xCF]), (0x7CF, &[0x04])],
            "stop 22 at cycle 3: the instruction due at 7CF ",
        ),
        input(
            "the example, ended before its stop",
            0,
            5,
            &panel(1_000, &[example], &[]),
            "end at cycle 5 of 1000: the walk",
        ),
        input(
            "the example, up to its stop",
            0,
            20,
            &panel(5, &[example], &[]),
            "end at cycle 5 of 5: the panel",
        ),
    ]
}

/// From and to each cycle of a few: owed ones, a skip's, an acceptance, a reset among them.
fn middles() -> Vec<Input> {
    // STC, LI 3, LI 4, CI 3 over OCD; LDI 79, LDI 80; TC over CI 4; RTS; EI, STM 81, NOPs; at 03C IA, OE, LDZ 8, OP, RT.
    let code: [u8; 18] = [
        0x1B, 0x93, 0x94, 0x17, 0x13, 0x1E, 0xA5, 0x15, 0x79, 0x15, 0x80, 0x04, 0x17, 0x04, 0x31,
        0x14, 0x81, 0x00,
    ];
    let routine: [u8; 5] = [0x40, 0x44, 0x88, 0x0E, 0x49];
    let records = [
        (0, 0x50, 0x00, 1, 0),
        (18, 0x51, 0x00, 0, 0),
        (19, 0x51, 0x2F, 1, 0),
        (30, 0xA1, 0x2F, 1, 1),
        (36, 0xA1, 0x2F, 0, 0),
    ];
    let bytes = panel(60, &[(0, &code), (0x3C, &routine)], &lines(&records));
    let mut inputs: Vec<Input> = (0..40)
        .map(|from| {
            input(
                &format!("from cycle {from}"),
                from,
                from + 3,
                &bytes,
                "end at cycle",
            )
        })
        .collect();
    inputs.push(input(
        "all of them",
        0,
        60,
        &bytes,
        "end at cycle 60 of 60: the panel",
    ));
    // JMP 0FF; an OCD there has its second byte, A0, at 000, and not 55, at 100.
    let last: [(usize, &[u8]); 2] = [(0x000, &[0xA0, 0xFF]), (0x0FF, &[0x1E, 0x55])];
    let bytes = panel(60, &last, &[]);
    let name = "a second byte at 000";
    inputs.push(input(name, 0, 9, &bytes, "end at cycle 9 of 60: the walk"));
    inputs
}

/// Far cycles: on the way to them the timer is waited for.
fn late() -> Vec<Input> {
    // STM BF, TTM, JCP 002, INC, NOP, OE, JCP 000.
    let wait: (usize, &[u8]) = (0, &[0x14, 0xBF, 0x05, 0xC2, 0x0D, 0x00, 0x44, 0xC0]);
    let bytes = panel(3_000_000, &[wait], &[]);
    let falls = schedule(&[
        (1_000, 0xC3, 0, 0),
        (4_034, 0xA5, 0, 1),
        (400_000, 0x5A, 0, 0),
    ]);
    let lined = panel(500_000, &[wait], &falls);
    vec![
        input(
            "the first wait ends",
            4_020,
            4_060,
            &bytes,
            "end at cycle 4060 of",
        ),
        input(
            "a slice ends in a wait",
            4_090,
            4_105,
            &bytes,
            "end at cycle 4105 of",
        ),
        input(
            "a later wait",
            2_999_980,
            3_000_100,
            &bytes,
            "end at cycle 3000000 of 3000000: the panel",
        ),
        input(
            "in the middle of a wait",
            1_000_001,
            1_000_003,
            &bytes,
            "end at cycle 1000003 of",
        ),
        input(
            "lines change on the way",
            399_990,
            400_010,
            &lined,
            "end at cycle 400010 of",
        ),
        input(
            "lines change as the wait ends",
            4_025,
            4_045,
            &lined,
            "end at cycle 4045 of",
        ),
    ]
}

fn refused() -> Vec<Input> {
    let whole = panel(10, &[(0, &EXAMPLE)], &[]);
    let mut inputs: Vec<Input> = [0, 3, 4, 2_003]
        .map(|length| {
            let name = format!("the example's first {length} bytes");
            input(&name, 0, 20, &whole[..length], "refused 21")
        })
        .into();
    let short = |name: &str, bytes: &[u8]| Input {
        name: String::from(name),
        bytes: bytes.to_vec(),
        last: String::from("refused 21"),
    };
    inputs.push(short("nothing", &[]));
    inputs.push(short("FROM alone", &[0; 8]));
    let with = |name: &str, schedule: &[u8], from: u64, last: &str| {
        let bytes = panel(10, &[(0, &EXAMPLE)], schedule);
        input(name, from, from + 20, &bytes, last)
    };
    inputs.extend([
        with("a schedule of 9 bytes", &[0; 9], 0, "refused 11"),
        with("a schedule of 40,970 bytes", &[0; 40_970], 0, "refused 12"),
        with(
            "a schedule of 200,000 bytes",
            &[0; 200_000],
            0,
            "refused 12",
        ),
        with("INT level 2", &lines(&[(3, 0, 0, 2, 0)]), 0, "refused 13"),
        with("RES 2", &lines(&[(3, 0, 0, 0, 2)]), 9, "refused 13"),
        with(
            "a cycle twice",
            &lines(&[(3, 0, 0, 1, 0), (3, 0, 0, 1, 0)]),
            0,
            "refused 14",
        ),
        with(
            "a cycle twice, FROM behind the stop",
            &lines(&[(3, 0, 0, 1, 0), (3, 0, 0, 1, 0)]),
            9,
            "refused 14",
        ),
    ]);
    inputs
}

/// Drawn ROMs and schedules, most of them with resets and many falls of INT, walked from a drawn cycle on.
fn drawn() -> Vec<Input> {
    let mut draw = Draw::new(35);
    (0..60)
        .map(|k| {
            let filter = draw.of(&[
                0,
                NO_STOPS | INSIDE,
                NO_STOPS | INSIDE | FEW_JCP,
                NO_STOPS | INSIDE | FEW_JCP | FEW_JUMPS,
            ]);
            let gap = draw.of(&[3, 9, 40]);
            let case = Case::new("drawn")
                .made_rom(draw.seed(), filter)
                .made_schedule(4_000, draw.seed(), gap, 0)
                .resets(draw.of(&[0, 3, 9]))
                .lent();
            let n = 500 + draw.below(3_000) as u32;
            let bytes = [&n.to_be_bytes(), &case.rom[..], &case.schedule].concat();
            let from = draw.below(1_000);
            input(&format!("drawn {k}"), from, from + 150, &bytes, "")
        })
        .collect()
}

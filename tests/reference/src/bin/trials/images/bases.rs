//! What the variants are made of: states of real runs, states at the ends of their widths, images
//! that are none, and shapes of images.

use reference::case::{highest, Case, INSIDE, NO_STOPS};
use reference::{save, Coverage, Sheet, State, Version};

/// Bytes of an image of version 2.
pub const IMAGE: usize = 82;

/// The places of a value: the RAM, the cycle number behind it, and the count.
pub const RAM: std::ops::Range<usize> = 28..124;
pub const CYCLE: std::ops::Range<usize> = 124..132;
pub const VALUE: usize = 133;

/// A program that sets the timer, fills a row, writes ports, takes interrupts and calls.
const PROGRAM: [u8; 32] = [
    0x15, 0x30, 0x14, 0xBF, 0x02, 0x0D, 0x00, 0x33, 0xC4, 0x31, 0xA9, 0x00, 0x1E, 0x5A, 0x84, 0x9B,
    0x0E, 0x05, 0xC9, 0x1B, 0x31, 0x44, 0x15, 0x47, 0x15, 0x12, 0x4D, 0x05, 0xDB, 0x14, 0x80, 0xC9,
];

/// A run of it from a state with bytes in its RAM.
fn program() -> Case {
    Case::new("images")
        .rom(0x000, &PROGRAM)
        .rom(0x03C, &[0x4A, 0x0D, 0x00, 0x4A, 0x44, 0x31, 0x48])
        .rom(0x100, &[0x1D, 0xAA, 0x40, 0x09, 0x48])
        .rom(0x240, &[0x4B, 0x1A, 0x49])
        .made_ram(43)
        .made_schedule(2_000, 546, 90, 5)
        .log(60_000)
}

/// The same program, reset every 100 cycles or so for six.
fn program_with_resets() -> Case {
    let pulses: Vec<_> = (0..400)
        .flat_map(|k| [(50 + 100 * k, k % 2, 1), (56 + 100 * k, 1, 0)])
        .map(|(cycle, int, res)| (cycle, 0x35, 0x0A, int as u8, res))
        .collect();
    program().lines(&pulses)
}

/// The state of the run at the first cycle from this one on where the condition holds.
fn first(case: &Case, from: u64, condition: impl Fn(&State) -> bool) -> State {
    (from..from + 20_000)
        .map(|n| case.clone().n(n).run(&mut Coverage::new()).0.state)
        .find(condition)
        .expect("no such state in 20,000 cycles")
}

/// PC above 7CF: a run that ends there with 22, after many codes.
fn above_the_rom() -> State {
    let case = Case::new("above the ROM")
        .made_rom(9, NO_STOPS | INSIDE)
        .rom(0x000, &[0x14, 0x95, 0xAB, 0x00])
        .rom(0x300, &[0x9D, 0x74, 0xA7, 0xD5])
        .made_ram(99)
        .n(60);
    let (answer, _) = case.run(&mut Coverage::new());
    assert_eq!(answer.number, 22);
    answer.state
}

/// The legal states, by name; those with a count behind the others.
pub fn states() -> Vec<(&'static str, State)> {
    let run = program();
    let resets = program_with_resets();
    vec![
        ("fresh", State::fresh()),
        (
            "owed cycles, running timer",
            first(&run, 700, |s| {
                s.owed > 0 && s.register > 1 && s.counter > 0 && s.mark == 0
            }),
        ),
        ("highest", highest()),
        ("mark LDI", first(&run, 900, |s| s.mark == 1 && s.owed > 0)),
        ("mark EI", first(&run, 500, |s| s.mark == 2 && s.inte == 1)),
        ("mark STM", first(&run, 300, |s| s.mark == 3 && s.owed > 0)),
        ("mark LI", first(&run, 300, |s| s.mark == 4)),
        ("PC above 7CF", above_the_rom()),
        (
            "timer ended",
            first(&run, 200, |s| s.tm == 1 && s.register == 0),
        ),
        (
            "count 1, running timer",
            first(&resets, 700, |s| s.count == 1 && s.register > 1),
        ),
        (
            "count 2, level low",
            first(&resets, 900, |s| s.count == 2 && s.level == 0),
        ),
        (
            "count 3, owed cycles",
            first(&resets, 1_100, |s| s.count == 3 && s.owed > 0),
        ),
        ("count 4, in reset", first(&resets, 1_300, |s| s.count == 4)),
    ]
}

/// How many of the states have a count of 0, at the front but for the highest.
pub const UNCOUNTED: usize = 9;

/// The same state with a count of 0, of which there is an image of version 1.
pub fn uncounted(state: &State) -> State {
    State {
        count: 0,
        ..state.clone()
    }
}

/// States that are refused, by name: one field of this state above its width or rule. Its timer runs.
pub fn faulty_states(state: &State) -> Vec<(&'static str, State)> {
    let with = |change: fn(&mut State)| {
        let mut state = state.clone();
        change(&mut state);
        state
    };
    vec![
        ("PC of 12 bits", with(|s| s.pc = 0x800)),
        ("last stack word of 12 bits", with(|s| s.stack[2] = 0x800)),
        ("Acc 16", with(|s| s.acc = 16)),
        ("level 2", with(|s| s.level = 2)),
        ("mark 5", with(|s| s.mark = 5)),
        ("stopped with a counter", with(|s| s.register = 0)),
        ("port I 8", with(|s| s.ports[6] = 8)),
        ("last RAM word 16", with(|s| s.ram[95] = 16)),
        ("cycle number 2^48", with(|s| s.cycle = 1 << 48)),
        ("count 5", with(|s| s.count = 5)),
        ("everything", {
            let mut all = state.clone();
            all.pc = 0xFFFF;
            all.ram = [0xFF; 96];
            all.ports = [0xFF; 7];
            all.cycle = u64::MAX;
            all
        }),
    ]
}

/// Bytes that are no images, by name; some have one byte other than the image of this state in a version.
pub fn others(version: Version, state: &State) -> Vec<(&'static str, Vec<u8>)> {
    let image = image_in(version, state);
    let with = |place: usize, value: u8| {
        let mut bytes = image.clone();
        bytes[place] = value;
        bytes
    };
    vec![
        ("all 00", vec![0; version.length()]),
        ("all FF", vec![0xFF; version.length()]),
        ("mark U44", with(2, b'4')),
        ("the other version", with(4, 3 - image[4])),
        ("port I 8", with(26, 8)),
    ]
}

pub fn image(state: &State) -> Vec<u8> {
    image_in(Version::Two, state)
}

/// The layout tells nothing of the sheet, so that of the uPD546 serves for all.
pub fn image_in(version: Version, state: &State) -> Vec<u8> {
    let mut image = vec![0; version.length()];
    assert_eq!(save(version, state, &mut image, Sheet::UPD546), 0);
    image
}

/// The state that a value is.
pub fn state_of(value: &[u8]) -> State {
    let word = |at: usize| u16::from_be_bytes([value[at], value[at + 1]]);
    let mut state = State {
        pc: word(0),
        stack: [word(2), word(4), word(6)],
        acc: value[8],
        carry: value[9],
        saved: value[10],
        dph: value[11],
        dpl: value[12],
        int: value[13],
        inte: value[14],
        tm: value[15],
        level: value[16],
        mark: value[17],
        owed: value[18],
        register: value[19],
        counter: value[20],
        ports: [0; 7],
        ram: [0; 96],
        cycle: value[CYCLE]
            .iter()
            .fold(0, |cycle, &byte| cycle << 8 | u64::from(byte)),
        count: value[CYCLE.end],
    };
    state.ports.copy_from_slice(&value[21..RAM.start]);
    state.ram.copy_from_slice(&value[RAM]);
    state
}

/// For each byte of an image its lowest value and how many it can take, 0 for any. One of version 1 has no
/// use for the last.
pub type Shape = [(u8, u8); IMAGE];

/// Bytes that need not be an image.
pub fn any() -> Shape {
    [(0, 0); IMAGE]
}

/// The mark `U43`, then any bytes.
pub fn marked() -> Shape {
    let mut shape = any();
    for (byte, letter) in shape.iter_mut().zip(*b"U43") {
        *byte = (letter, 1);
    }
    shape
}

/// The mark and the version, then any bytes.
pub fn versioned(version: Version) -> Shape {
    let mut shape = marked();
    shape[3] = (0, 1);
    shape[4] = (version.number() as u8, 1);
    shape
}

/// The mark and the version, then every byte within its width; so many values more.
pub fn narrow(version: Version, more: u8) -> Shape {
    let mut shape = versioned(version);
    let mut count = |place: usize, count: u8| shape[place] = (0, count + more);
    for place in [5, 7, 9, 11, 26] {
        count(place, 8);
    }
    for place in [14, 20, 21, 22, 23, 24, 25] {
        count(place, 16);
    }
    count(16, 5);
    count(17, 4);
    for place in [15, 18, 19] {
        count(place, 64);
    }
    count(13, 128);
    count(81, 5);
    shape
}

/// Close to an image in every byte: the mark, the version and the fields are one off at times.
pub fn near(version: Version) -> Shape {
    let mut shape = narrow(version, 1);
    let below = version.number() as u8 - 1;
    for (byte, lowest) in shape.iter_mut().zip([b'U', b'4', b'3', 0, below]) {
        *byte = (lowest, 2);
    }
    shape
}

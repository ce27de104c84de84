//! The panels that are cut: a program, its lines and the cycles of its unbroken run.

use reference::case::{Case, LinesFrom, FEW_JCP, FEW_JUMPS, INSIDE, NO_STOPS};
use reference::kinds::{all_of, Kind};

use super::sheets;

/// A ROM on which a run goes on and comes round by many ways.
const LASTING: u8 = NO_STOPS | FEW_JCP | INSIDE | FEW_JUMPS;

/// At 03C: INC Z, OE, EI, RT.
const ANSWER: [u8; 7] = [0x4A, 0x0D, 0x00, 0x4A, 0x44, 0x31, 0x48];

pub const KINDS: [Kind<Case>; 12] = [
    ("waits", waits),
    ("interrupts", interrupts),
    ("instructions", instructions),
    ("stops", stops),
    ("starts", starts),
    ("any", any),
    ("marked_waits", marked_waits),
    ("read_back", || vec![read_back()]),
    ("load_strings", load_strings),
    ("resets", resets),
    ("reset_ends", reset_ends),
    ("sheets", sheets::panels),
];

pub fn panels() -> Vec<Case> {
    all_of(&KINDS)
}

/// Loops on TTM, of short and of long intervals, with records between and without.
fn waits() -> Vec<Case> {
    vec![
        Case::new("waits of 63 cycles")
            .rom(0, &[0x14, 0x80, 0x05, 0xC2, 0x0D, 0x00, 0x44, 0xC0])
            .n(2_000)
            .ends(0),
        // The run ends with a jump that begins at STM's end.
        Case::new("one wait of 4,032 cycles")
            .rom(0, &[0x14, 0xBF, 0x05, 0xC2, 0x0D, 0x00, 0x44, 0xC0])
            .schedule(&[
                (700, 0x12, 0x34, 1),
                (1_401, 0x56, 0x78, 0),
                (2_800, 0, 0, 1),
            ])
            .n(4_096)
            .ends(0),
        Case::new("waits with records close together")
            .rom(0, &[0x14, 0x84, 0x05, 0xC2, 0x40, 0x44, 0x1D, 0x00, 0xC0])
            .made_schedule(2_000, 91, 25, 3)
            .n(2_500)
            .ends(0),
        // The wait is left for the answer and gone on with.
        Case::new("interrupts in a wait")
            .rom(0, &[0x31, 0x14, 0x8F, 0x05, 0xC3, 0x0D, 0x00, 0x44, 0xC1])
            .rom(0x3C, &ANSWER)
            .made_schedule(600, 92, 160, 20)
            .n(3_000)
            .ends(0),
    ]
}

/// Interrupts between EI and RT, in chains of EI, and in the answer.
fn interrupts() -> Vec<Case> {
    vec![
        Case::new("EI and RT")
            .rom(0, &[0x31, 0x00, 0x20, 0x33, 0x13, 0xC1, 0xC1])
            .rom(0x3C, &ANSWER)
            .made_schedule(8_000, 93, 5, 1)
            .n(2_000)
            .ends(0),
        Case::new("chains of EI, DI and TIT")
            .rom(
                0,
                &[
                    0x31, 0x31, 0x31, 0x44, 0x01, 0x03, 0x0D, 0x00, 0x31, 0x40, 0xC0,
                ],
            )
            .rom(0x3C, &[0x31, 0x31, 0x1D, 0x48, 0x48])
            .made_schedule(8_000, 94, 4, 2)
            .n(2_000)
            .ends(0),
    ]
}

fn instructions() -> Vec<Case> {
    vec![
        // TC and FBF before CI, LDI, STM, OCD, JMP and CAL, with C 1; CLI before OCD; XC.
        Case::new("skips over two bytes")
            .rom(
                0,
                &[0x1B, 0x04, 0x17, 0x30, 0x04, 0x15, 0x55, 0x20, 0x14, 0x80],
            )
            .rom(10, &[0x04, 0x1E, 0x77, 0x20, 0xA7, 0xD0, 0x04, 0xAF, 0xD0])
            .rom(
                19,
                &[0x0D, 0x00, 0x44, 0x16, 0x00, 0x1E, 0x12, 0x1A, 0x00, 0xC0],
            )
            .n(1_500)
            .ends(0),
        Case::new("OCD for ever")
            .rom(0, &[0x1E, 0x5A, 0x1E, 0xC3, 0x1E, 0x0F, 0xC0])
            .n(1_500)
            .ends(0),
        Case::new("chains of LDI and of STM")
            .rom(
                0,
                &[
                    0x15, 0x23, 0x15, 0x45, 0x15, 0x00, 0x02, 0x14, 0x80, 0x14, 0x81,
                ],
            )
            .rom(11, &[0x15, 0x71, 0x0D, 0x00, 0x3D, 0x44, 0x05, 0xC0, 0xC0])
            .rom(0x3C, &ANSWER)
            .with(|state| state.inte = 1)
            .made_schedule(900, 95, 40, 0)
            .n(1_500)
            .ends(0),
        Case::new("calls and returns that skip")
            .rom(0x000, &[0xA9, 0x00, 0x00, 0x0D, 0xC0, 0x44, 0xC0])
            .rom(0x100, &[0xAA, 0x40, 0x00, 0x49])
            .rom(0x240, &[0xAB, 0xBF, 0x1D, 0x00, 0x49])
            .rom(0x3BF, &[0x0D, 0x00, 0x1E, 0x49, 0x49])
            .made_ram(11)
            .n(1_500)
            .ends(0),
    ]
}

/// Stops late in the run: the list goes on after them.
fn stops() -> Vec<Case> {
    vec![
        Case::new("1C after a wait")
            .rom(0, &[0x14, 0x86, 0x05, 0xC2, 0x44, 0x1E, 0x99, 0x1C])
            .n(900)
            .ends(23),
        Case::new("JMP above the ROM after a count")
            .rom(0, &[0x80, 0x1D, 0xC0, 0x81, 0x1D, 0xC0, 0x44, 0xA7, 0xD1])
            .n(1_500)
            .ends(22),
        Case::new("a skip at 7CF")
            .rom(0, &[0x44, 0x0D, 0xC0, 0xA7, 0xCD])
            .rom(0x7CD, &[0x44, 0x1B, 0x04])
            .n(200)
            .ends(22),
    ]
}

/// Starts that no run reaches, and the last cycle.
fn starts() -> Vec<Case> {
    vec![
        Case::new("mark STM, three owed, TM 1 with the timer running")
            .rom(0, &[0x05, 0xC0, 0x44, 0x14, 0x82, 0xC0])
            .with(|state| (state.mark, state.owed, state.tm) = (3, 3, 1))
            .with(|state| (state.register, state.counter) = (33, 2))
            .n(1_000)
            .ends(0),
        Case::new("up to the last cycle")
            .rom(0, &[0x14, 0x90, 0x05, 0xC2, 0x44, 0x1E, 0x3C, 0xC0])
            .with(|state| state.cycle = (1 << 48) - 1 - 1_500)
            .made_schedule(300, 96, 60, (1 << 48) - 1 - 1_600)
            .n(1_500)
            .ends(0),
    ]
}

/// ROMs of the generator.
fn any() -> Vec<Case> {
    [(1_001, 97, 6), (2_003, 98, 30), (3_005, 99, 200)]
        .into_iter()
        .map(|(seed, records, gap)| {
            Case::new(format!("any ROM {seed}"))
                .made_rom(seed, LASTING)
                .made_ram(seed)
                .made_schedule(4_000, records, gap, 0)
                .n(1_500)
                .ends(0)
        })
        .collect()
}

/// Waits that are entered with mark STM, EI and LDI: TTM stands directly after these. `load_strings` has one of LI.
fn marked_waits() -> Vec<Case> {
    vec![
        // STM at 0FE, so that TTM is at 000.
        Case::new("waits after STM")
            .rom(0x0FE, &[0x14, 0x81])
            .rom(0, &[0x05, 0xC0, 0x0D, 0x00, 0x44, 0xA0, 0xFE])
            .with(|state| state.pc = 0x0FE)
            .made_schedule(400, 88, 90, 10)
            .n(1_500)
            .ends(0),
        // Between DI and EI a second wait, in which INT falls: EI then holds the interrupt back.
        Case::new("waits after EI")
            .rom(0, &[0x14, 0x80, 0x31, 0x05, 0xC3, 0x01, 0x14, 0x80])
            .rom(8, &[0x05, 0xC8, 0x0D, 0x00, 0xC0])
            .rom(0x3C, &ANSWER)
            .made_schedule(600, 89, 90, 0)
            .n(2_500)
            .ends(0),
        // The second LDI of two is a NOP that keeps the mark.
        Case::new("waits after LDI")
            .rom(0, &[0x14, 0x80, 0x15, 0x25, 0x05, 0xC4, 0x1D, 0x00])
            .rom(8, &[0x14, 0x80, 0x15, 0x31, 0x15, 0x47, 0x05, 0xCE])
            .rom(16, &[0x1D, 0x00, 0x44, 0xC0])
            .made_schedule(300, 90, 120, 50)
            .n(2_000)
            .ends(0),
    ]
}

/// C and D are read back in every pass, by IP and by TPB, and what is read goes to E. Their latches stay for
/// 16 passes; keys answer now and then.
fn read_back() -> Case {
    let keys: Vec<(u64, u8, u8, u8)> = (0..20)
        .flat_map(|k| [(30 + 70 * k, 0x11 << (k % 4)), (50 + 70 * k, 0)])
        .map(|(cycle, cd)| (cycle, 0, cd, 1))
        .collect();
    Case::new("C and D read back")
        // OCD 5A. LDZ 2, IP, OE; LDZ 3, IP, OE; TPB 1, SEB 0; LDZ 2, TPB 3, SEB 2; INM, JCP 002.
        .rom(0, &[0x1E, 0x5A, 0x82, 0x32, 0x44, 0x83, 0x32, 0x44])
        .rom(8, &[0x51, 0x74, 0x82, 0x53, 0x76, 0x1D, 0xC2])
        // Every 16th pass Z is counted up, C becomes Z and D 15 - Z: XAZ, INC, NOP, OP, LDZ 3, CMA, OP,
        // CMA, XAZ, JCP 002.
        .rom(
            15,
            &[0x4A, 0x0D, 0x00, 0x0E, 0x83, 0x10, 0x0E, 0x10, 0x4A, 0xC2],
        )
        .schedule(&keys)
        .n(1_500)
        .ends(0)
}

/// Tables of loads, of LI from 040 on and of LDI from 060 on, are entered at each of their loads, and what was loaded goes
/// to E. INT falls at every place of them, and the answer writes Acc too. A mark that is lost at a cut lets a second load
/// act; an interrupt that is taken in a string does too. And a wait directly after LI.
fn load_strings() -> Vec<Case> {
    vec![
        Case::new("strings of LI")
            // EI. CAL 040, 041, 042 and 043; JCP 001.
            .rom(
                0,
                &[0x31, 0xA8, 0x40, 0xA8, 0x41, 0xA8, 0x42, 0xA8, 0x43, 0xC1],
            )
            // LI 1, LI 2, CLA, LI 4, OE, RT.
            .rom(0x40, &[0x91, 0x92, 0x90, 0x94, 0x44, 0x48])
            .rom(0x3C, &[0x44, 0x31, 0x48])
            .schedule(&falls(17, 90))
            .n(1_500)
            .ends(0),
        Case::new("strings of LDI")
            // EI. CAL 060, 062 and 064; JCP 001.
            .rom(0, &[0x31, 0xA8, 0x60, 0xA8, 0x62, 0xA8, 0x64, 0xC1])
            // LDI 21, LDI 35, LDI 49, TLA, OE, LI 7, CLA, EI, OE, RT: EI stands at the end of the second string.
            .rom(0x60, &[0x15, 0x21, 0x15, 0x35, 0x15, 0x49, 0x12, 0x44])
            .rom(0x68, &[0x97, 0x90, 0x31, 0x44, 0x48])
            .rom(0x3C, &[0x44, 0x31, 0x48])
            .schedule(&falls(23, 65))
            .n(1_500)
            .ends(0),
        // The second LI of two is a NOP that keeps the mark. INT falls now and then, and its answer comes behind TTM.
        Case::new("waits after LI")
            .rom(0, &[0x31, 0x14, 0x80, 0x96, 0x93, 0x05, 0xC5, 0x44])
            .rom(8, &[0x14, 0x80, 0x95, 0x05, 0xCB, 0x44, 0xC1])
            .rom(0x3C, &ANSWER)
            .made_schedule(600, 91, 60, 2)
            .n(2_000)
            .ends(0),
    ]
}

/// Pulses of RES of one to six cycles in turn, so many, one each so many cycles from the first on; INT is low in every third of them.
fn pulses(first: u64, each: u64, count: u64) -> Vec<LinesFrom> {
    let pulse = |k: u64| {
        let (from, high) = (first + each * k, 1 + k % 6);
        let int = u8::from(k % 3 != 2);
        [(from, 0x5A, 0xC3, int, 1), (from + high, 0xA5, 0x3C, 1, 0)]
    };
    (0..count).flat_map(pulse).collect()
}

/// Pulses of RES that drift through every kind of cycle: some are resets and some too short for one. A count that is lost at a cut makes
/// a reset come late or not at all, a count that is kept too long makes one out of two short pulses.
fn resets() -> Vec<Case> {
    vec![
        Case::new("resets of interrupts, skips and OCD")
            .rom(
                0,
                &[0x31, 0x1B, 0x04, 0x17, 0x33, 0x1E, 0x5A, 0x44, 0x15, 0x23],
            )
            .rom(
                10,
                &[
                    0x15, 0x45, 0x95, 0x99, 0x0D, 0x00, 0x14, 0x80, 0x05, 0xC1, 0xC1,
                ],
            )
            .rom(0x3C, &ANSWER)
            .made_ram(5)
            .lines(&pulses(3, 13, 110))
            .n(1_500)
            .ends(0),
        // Landing lamps on port F follow line A, and resets darken them.
        Case::new("resets of lit lamps")
            .rom(0, &[0x85, 0x40, 0x0E, 0xC1])
            .lines(&pulses(20, 37, 38))
            .n(1_500)
            .ends(0),
        // STM 4, TTM, JCP 002, INM, OE, JCP 000; INM counts the waits, and a reset begins a new one.
        Case::new("waits with resets")
            .rom(0, &[0x14, 0x84, 0x05, 0xC2, 0x1D, 0x00, 0x44, 0xC0])
            .lines(&pulses(150, 211, 9))
            .n(2_000)
            .ends(0),
        // OCD for ever, cut short by a reset in its second cycle.
        Case::new("OCD and resets")
            .rom(0, &[0x1E, 0x5A, 0x1E, 0xC3, 0xC0])
            .lines(&pulses(1, 9, 160))
            .n(1_500)
            .ends(0),
        // High for 90 cycles and low for 60, other lines changing.
        Case::new("held in reset now and then")
            .rom(0, &[0x31, 0x40, 0x44, 0x82, 0x32, 0x44, 0xC1])
            .rom(0x3C, &ANSWER)
            .lines(&held())
            .n(1_500)
            .ends(0),
        Case::new("any ROM with resets")
            .made_rom(2_003, LASTING)
            .made_ram(2_003)
            .made_schedule(6_000, 101, 6, 0)
            .resets(3)
            .n(1_500)
            .ends(0),
        // STM 0, TTM, JCP 005, JCP 008, NOP, JCP 002, NOP, OE, JCP 000: pulses of one to three cycles as a rule, also where the timer ends.
        Case::new("the timer's end and short pulses")
            .rom(
                0,
                &[0x14, 0x80, 0x05, 0xC5, 0xC8, 0x00, 0xC2, 0x00, 0x44, 0xC0],
            )
            .made_schedule(12_000, 107, 2, 0)
            .resets(4)
            .n(1_500)
            .ends(0),
        Case::new("resets of few cycles")
            .rom(0, &[0x31, 0x44, 0x0D, 0x00, 0xC1])
            .rom(0x3C, &ANSWER)
            .lines(&pulses(4, 11, 11))
            .n(130)
            .ends(0),
    ]
}

fn held() -> Vec<LinesFrom> {
    (0..150)
        .map(|k| {
            (
                10 * k,
                (k % 7) as u8,
                0x21,
                u8::from(k % 4 != 1),
                u8::from(k % 15 < 9),
            )
        })
        .collect()
}

/// Starts with a count, an end in reset, and stops while RES is high: their count stays.
fn reset_ends() -> Vec<Case> {
    vec![
        Case::new("a count of 3 at the start, held at the end")
            .rom(0, &[0x44, 0x0D, 0x00, 0xC0])
            .with(|state| (state.pc, state.count, state.owed) = (0x300, 3, 2))
            .lines(&[(0, 0, 0, 1, 1), (40, 0, 0, 1, 0), (900, 0, 0, 1, 1)])
            .n(1_000)
            .ends(0),
        Case::new("a wait with a count of 4 at the start, RES low")
            .rom(0, &[0x14, 0x84, 0x05, 0xC2, 0x44, 0xC0])
            .with(|state| (state.pc, state.register, state.counter, state.count) = (2, 1, 4, 4))
            .lines(&pulses(500, 3, 2))
            .n(700)
            .ends(0),
        // 1C in the third cycle with RES high: the clock stands, and the count is 2.
        Case::new("1C with RES high")
            .rom(0, &[0x80, 0x1D, 0xC0, 0x81, 0x1D, 0xC0, 0x44, 0x1C])
            .lines(&[
                (100, 0, 0, 1, 1),
                (110, 0, 0, 1, 0),
                (ONE_C - 2, 0, 0, 1, 1),
            ])
            .n(1_200)
            .ends(23),
        Case::new("JMP above the ROM with RES high")
            .rom(0, &[0x44, 0x0D, 0xC0, 0xA7, 0xD1])
            .lines(&[(JUMPED - 1, 0, 0, 1, 1)])
            .n(200)
            .ends(22),
    ]
}

/// The cycles in which these two stop.
const ONE_C: u64 = 917;
const JUMPED: u64 = 66;

/// So many falls of INT, one each so many cycles; it is high again two cycles later.
fn falls(each: u64, count: u64) -> Vec<(u64, u8, u8, u8)> {
    (1..=count)
        .flat_map(|k| [(each * k, 0, 0, 0), (each * k + 2, 0, 0, 1)])
        .collect()
}

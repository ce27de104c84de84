//! Request R-1 of document 02, "Waiting times from the log": what a port log tells of four call lamps.
//!
//! A log is first judged from its beginning to its end; then each landing is gone through by itself.

use std::array;
use std::collections::BTreeSet;
use std::fmt::Write;

use crate::log::{records, Record, RECORD, RESET};
use crate::numbers::{CARRIED, FINISHED, LOG_RECORD};
use crate::trace::refused;

/// "four landings"
pub const LANDINGS: usize = 4;

/// "Bits 0 to 3 of port F are the call lamps"; A is port 0.
pub const LAMPS: u8 = 5;

/// The largest figure that can be carried: one is refused "above 2^60".
pub const LARGEST: u64 = 1 << 60;

/// Port I has three bits.
const PORT_I: u8 = 8;

/// What is carried of a landing: "closed waits, their cycles together, the longest, and whether one is
/// open at the end", 1 if so, and where that one started, 0 if none is open.
#[derive(Clone, Copy, Default, PartialEq, Eq, Debug)]
pub struct Landing {
    pub closed: u64,
    pub cycles: u64,
    pub longest: u64,
    pub open: u8,
    pub start: u64,
}

/// "its report, lamps, last cycle and open starts". The first log is read from all zeros: "dark at the
/// start".
#[derive(Clone, Copy, Default, PartialEq, Eq, Debug)]
pub struct Carried {
    pub landings: [Landing; LANDINGS],
    /// Bit i is landing i's.
    pub lamps: u8,
    pub last: u64,
}

/// What reading a log answers: 0 and what is carried on, or the number of the error and "all zeros".
#[derive(Clone, PartialEq, Eq, Debug)]
pub struct Answer {
    pub number: u8,
    pub carried: Carried,
}

/// Why a log is refused.
#[derive(Clone, Copy, PartialEq, Eq, PartialOrd, Ord, Debug)]
pub enum Ground {
    /// "the length is no multiple of 8"
    Length,
    /// "a figure is above 2^60": any of the numbers that are carried.
    Figure,
    /// "lamps above 15"
    Lamps,
    /// "a start above the last cycle"
    Start,
    /// "a dark lamp's start not 0"
    DarkStart,
    /// "an open mark unlike its lamp"
    OpenMark,
    /// "a port outside 2 to 8"; not that of a reset
    Port,
    /// "a value above 15 (7 for I)"; of a reset, any but 0
    Value,
    /// "a cycle below the one before"
    Cycle,
}

impl Ground {
    pub const ALL: [Ground; 9] = [
        Ground::Length,
        Ground::Figure,
        Ground::Lamps,
        Ground::Start,
        Ground::DarkStart,
        Ground::OpenMark,
        Ground::Port,
        Ground::Value,
        Ground::Cycle,
    ];

    pub fn number(self) -> u8 {
        match self {
            Ground::Port | Ground::Value | Ground::Cycle => LOG_RECORD,
            _ => CARRIED,
        }
    }
}

/// Reads a log on from what is carried.
pub fn read_on(carried: &Carried, log: &[u8]) -> Answer {
    match grounds(carried, log).first() {
        None => Answer {
            number: FINISHED,
            carried: accepted(carried, log),
        },
        Some(ground) => Answer {
            number: ground.number(),
            carried: Carried::default(),
        },
    }
}

/// All grounds of 41; where there is none, "then, record by record", those of the first record that
/// has one.
pub fn grounds(carried: &Carried, log: &[u8]) -> BTreeSet<Ground> {
    let mut found = grounds_of_whole(carried, log);
    let mut before = carried.last;
    for record in records(log) {
        if !found.is_empty() {
            break;
        }
        found = grounds_of_record(before, record);
        before = record.cycle;
    }
    found
}

fn grounds_of_whole(carried: &Carried, log: &[u8]) -> BTreeSet<Ground> {
    let mut found = BTreeSet::new();
    if !log.len().is_multiple_of(RECORD) {
        found.insert(Ground::Length);
    }
    if carried.last > LARGEST {
        found.insert(Ground::Figure);
    }
    if carried.lamps > 15 {
        found.insert(Ground::Lamps);
    }
    for (place, landing) in carried.landings.iter().enumerate() {
        let lamp = lamp(carried.lamps, place);
        let figures = [
            landing.closed,
            landing.cycles,
            landing.longest,
            landing.start,
        ];
        if figures.iter().any(|&figure| figure > LARGEST) {
            found.insert(Ground::Figure);
        }
        if landing.start > carried.last {
            found.insert(Ground::Start);
        }
        if lamp == 0 && landing.start != 0 {
            found.insert(Ground::DarkStart);
        }
        if landing.open != lamp {
            found.insert(Ground::OpenMark);
        }
    }
    found
}

/// A cycle equal to the one before is fine.
fn grounds_of_record(before: u64, record: Record) -> BTreeSet<Ground> {
    let mut found = BTreeSet::new();
    // "R-1 takes this port with value 0 only".
    if record.port != RESET && !(2..=8).contains(&record.port) {
        found.insert(Ground::Port);
    }
    let highest = match record.port {
        RESET => 0,
        PORT_I => 7,
        _ => 15,
    };
    if record.value > highest {
        found.insert(Ground::Value);
    }
    if record.cycle < before {
        found.insert(Ground::Cycle);
    }
    found
}

/// A landing's lamp, 0 or 1.
fn lamp(lamps: u8, landing: usize) -> u8 {
    lamps >> landing & 1
}

/// The records that tell of the lamps, each with the four bits of it: those of port F, and those of resets,
/// which have value 0: R-8 "darkens all lamps, closing their waits".
fn writes(log: &[u8]) -> impl Iterator<Item = Record> + '_ {
    records(log).filter(|record| matches!(record.port, LAMPS | RESET))
}

/// What a log without a ground answers. Records of other ports move the last cycle and nothing else.
fn accepted(carried: &Carried, log: &[u8]) -> Carried {
    let writes: Vec<Record> = writes(log).collect();
    Carried {
        landings: array::from_fn(|place| {
            let lamps = writes.iter().map(|write| {
                let lamp = lamp(write.value, place);
                (write.cycle, lamp)
            });
            waits(&carried.landings[place], lamps)
        }),
        lamps: writes.last().map_or(carried.lamps, |write| write.value),
        last: records(log).last().map_or(carried.last, |last| last.cycle),
    }
}

/// "A bit going to 1 opens a wait and going to 0 closes it." Waits of a landing don't overlap, and
/// cycles have 48 bits: in a log the cycles rise by less than 2^48, and closed waits by at most its
/// records, so that no sum passes 64 bits.
fn waits(carried: &Landing, lamps: impl Iterator<Item = (u64, u8)>) -> Landing {
    let mut open = (carried.open == 1).then_some(carried.start);
    let mut closed = Vec::new();
    for (cycle, lamp) in lamps {
        match (open, lamp) {
            (None, 1) => open = Some(cycle),
            (Some(start), 0) => {
                closed.push(cycle - start);
                open = None;
            }
            _ => {}
        }
    }
    let longest = closed.iter().copied().max().unwrap_or(0);
    Landing {
        closed: carried.closed + closed.len() as u64,
        cycles: carried.cycles + closed.iter().sum::<u64>(),
        longest: carried.longest.max(longest),
        open: u8::from(open.is_some()),
        start: open.unwrap_or(0),
    }
}

/// For each landing "the lamps lit, counted from the log's own rising bits".
pub fn lamps_lit(lamps: u8, log: &[u8]) -> [u64; LANDINGS] {
    let mut lit = [0; LANDINGS];
    let mut before = lamps;
    for write in writes(log) {
        for (place, count) in lit.iter_mut().enumerate() {
            *count += u64::from(lamp(write.value & !before, place));
        }
        before = write.value;
    }
    lit
}

/// What program `waits` prints of an answer.
pub fn report_text(answer: &Answer) -> String {
    if answer.number != FINISHED {
        return refused(answer.number);
    }
    let mut text = String::from("landing closed cycles longest open\n");
    for (place, landing) in answer.carried.landings.iter().enumerate() {
        let Landing {
            closed,
            cycles,
            longest,
            open,
            ..
        } = landing;
        writeln!(text, "{place} {closed} {cycles} {longest} {open}")
            .expect("a string takes every line");
    }
    text
}

#[cfg(test)]
mod tests {
    use super::*;

    const LAST_CYCLE: u64 = (1 << 48) - 1;

    /// A log of records: cycle, port, value.
    fn log(records: &[(u64, u8, u8)]) -> Vec<u8> {
        let bytes = |&(cycle, port, value): &(u64, u8, u8)| {
            let record = Record { cycle, port, value };
            record.bytes()
        };
        records.iter().flat_map(bytes).collect()
    }

    /// What is answered from the beginning.
    fn first(records: &[(u64, u8, u8)]) -> Answer {
        read_on(&Carried::default(), &log(records))
    }

    /// The number, and of each landing closed, cycles, longest, open and start.
    fn told(answer: &Answer) -> (u8, [[u64; 5]; LANDINGS]) {
        let landings = answer.carried.landings.map(|landing| {
            [
                landing.closed,
                landing.cycles,
                landing.longest,
                u64::from(landing.open),
                landing.start,
            ]
        });
        (answer.number, landings)
    }

    const NONE: [u64; 5] = [0; 5];

    /// Landing 0 had waits of 50 and 100 cycles and is dark; landing 1 is lit since 900, landing 3
    /// since the last cycle, 1,000.
    fn morning() -> Carried {
        let mut carried = Carried::default();
        carried.landings[0] = Landing {
            closed: 2,
            cycles: 150,
            longest: 100,
            ..Landing::default()
        };
        for (place, start) in [(1, 900), (3, 1_000)] {
            carried.landings[place].open = 1;
            carried.landings[place].start = start;
        }
        carried.lamps = 0b1010;
        carried.last = 1_000;
        carried
    }

    fn number(carried: &Carried, records: &[(u64, u8, u8)]) -> u8 {
        let answer = read_on(carried, &log(records));
        let refused = answer.number != FINISHED;
        assert!(!refused || answer.carried == Carried::default());
        answer.number
    }

    fn changed(change: impl FnOnce(&mut Carried)) -> Carried {
        let mut carried = morning();
        change(&mut carried);
        carried
    }

    #[test]
    fn landing_i_is_bit_i_of_port_5() {
        for place in 0..LANDINGS {
            let answer = first(&[(7, 5, 1 << place)]);
            let mut landings = [NONE; 4];
            landings[place] = [0, 0, 0, 1, 7];
            assert_eq!(told(&answer), (0, landings));
            assert_eq!(answer.carried.lamps, 1 << place);
        }
        for port in [2, 3, 4, 6, 7, 8] {
            let answer = first(&[(7, port, 7)]);
            assert_eq!(told(&answer), (0, [NONE; 4]), "port {port}");
        }
    }

    #[test]
    fn a_wait_is_closing_minus_opening() {
        let answer = first(&[(10, 5, 1), (60, 5, 0), (200, 5, 1), (300, 5, 0)]);
        assert_eq!(told(&answer), (0, [[2, 150, 100, 0, 0], NONE, NONE, NONE]));
        // From the first cycle to the last.
        let answer = first(&[(0, 5, 4), (LAST_CYCLE, 5, 0)]);
        let landing = [1, LAST_CYCLE, LAST_CYCLE, 0, 0];
        assert_eq!(told(&answer), (0, [NONE, NONE, landing, NONE]));
        // Of 0 cycles, twice.
        let answer = first(&[(9, 5, 2), (9, 5, 0), (9, 5, 2), (9, 5, 0)]);
        assert_eq!(told(&answer), (0, [NONE, [2, 0, 0, 0, 0], NONE, NONE]));
    }

    #[test]
    fn an_open_wait_adds_to_neither_cycles_nor_longest() {
        let answer = first(&[(10, 5, 1), (15, 5, 0), (20, 5, 1), (9_000, 2, 0)]);
        assert_eq!(told(&answer), (0, [[1, 5, 5, 1, 20], NONE, NONE, NONE]));
        let answer = first(&[(20, 5, 1), (9_000, 2, 0)]);
        assert_eq!(told(&answer), (0, [[0, 0, 0, 1, 20], NONE, NONE, NONE]));
        // The longest is neither the first wait nor the last.
        let waits = [
            (0, 5, 8),
            (3, 5, 0),
            (4, 5, 8),
            (14, 5, 0),
            (15, 5, 8),
            (20, 5, 0),
        ];
        assert_eq!(
            told(&first(&waits)),
            (0, [NONE, NONE, NONE, [3, 18, 10, 0, 0]])
        );
    }

    #[test]
    fn a_repeated_bit_does_nothing() {
        let answer = first(&[
            (5, 5, 0),
            (10, 5, 1),
            (20, 5, 1),
            (30, 5, 0),
            (40, 5, 0),
            (50, 5, 0),
        ]);
        assert_eq!(told(&answer), (0, [[1, 20, 20, 0, 0], NONE, NONE, NONE]));
        // One record closes on landings 0 and 2 and opens on 1 and 3.
        let answer = first(&[(10, 5, 0b0101), (25, 5, 0b1010)]);
        let (closed, open) = ([1, 15, 15, 0, 0], [0, 0, 0, 1, 25]);
        assert_eq!(told(&answer), (0, [closed, open, closed, open]));
    }

    #[test]
    fn other_ports_are_checked_and_move_the_last_cycle() {
        let answer = first(&[(10, 5, 1), (70, 2, 15), (80, 8, 7), (90, 7, 0)]);
        assert_eq!(told(&answer), (0, [[0, 0, 0, 1, 10], NONE, NONE, NONE]));
        assert_eq!((answer.carried.lamps, answer.carried.last), (1, 90));
        assert_eq!(number(&Carried::default(), &[(70, 2, 1), (69, 5, 0)]), 42);
        for port in 2..=8 {
            assert_eq!(number(&Carried::default(), &[(70, port, 16)]), 42);
        }
    }

    #[test]
    fn the_answer_is_what_the_next_log_is_read_from() {
        let answer = first(&[(10, 5, 0b0011), (60, 5, 0b0010)]);
        let mut carried = Carried::default();
        carried.landings[0] = Landing {
            closed: 1,
            cycles: 50,
            longest: 50,
            open: 0,
            start: 0,
        };
        carried.landings[1] = Landing {
            open: 1,
            start: 10,
            ..Landing::default()
        };
        carried.lamps = 0b0010;
        carried.last = 60;
        assert_eq!(answer, Answer { number: 0, carried });
        assert_eq!(read_on(&carried, &[]), answer);
        let answer = read_on(&carried, &log(&[(100, 5, 0)]));
        let landings = [[1, 50, 50, 0, 0], [1, 90, 90, 0, 0], NONE, NONE];
        assert_eq!(told(&answer), (0, landings));
        // An error answers zeros, whatever was carried.
        for answer in [read_on(&carried, &[0]), read_on(&carried, &[1; 8])] {
            assert_eq!(answer.carried, Carried::default());
        }
    }

    #[test]
    fn the_length_comes_before_any_record() {
        let sound = log(&[(10, 5, 1), (20, 5, 0), (30, 2, 4)]);
        // Port 1 in the first record.
        let mut damaged = sound.clone();
        damaged[6] = 1;
        for length in 0..=24 {
            let whole = length % 8 == 0;
            let of = |log: &[u8]| read_on(&Carried::default(), &log[..length]).number;
            assert_eq!(of(&sound), if whole { 0 } else { 41 });
            let number = if length == 0 { 0 } else { 42 };
            assert_eq!(of(&damaged), if whole { number } else { 41 });
        }
        // What is carried, too.
        let carried = changed(|carried| carried.lamps = 16);
        assert_eq!(read_on(&carried, &damaged).number, 41);
    }

    #[test]
    fn a_figure_is_taken_up_to_2_60() {
        let figures: [fn(&mut Carried) -> &mut u64; 5] = [
            |carried| &mut carried.landings[0].closed,
            |carried| &mut carried.landings[1].cycles,
            |carried| &mut carried.landings[2].longest,
            |carried| &mut carried.landings[3].closed,
            |carried| &mut carried.last,
        ];
        for figure in figures {
            for (value, due) in [(1 << 60, 0), ((1 << 60) + 1, 41), (u64::MAX, 41)] {
                let carried = changed(|carried| *figure(carried) = value);
                assert_eq!(number(&carried, &[]), due);
                let grounds: Vec<Ground> = grounds(&carried, &[]).into_iter().collect();
                assert_eq!(grounds == [Ground::Figure], due == 41);
            }
        }
        // A start, with a last cycle that is as high.
        for (value, due) in [(1 << 60, 0), ((1 << 60) + 1, 41)] {
            let carried = changed(|carried| {
                carried.landings[1].start = value;
                carried.last = value;
            });
            assert_eq!(number(&carried, &[]), due);
        }
        // 2^60 is taken, rises above, and is 41 when it is carried.
        let carried = changed(|carried| {
            carried.landings[1].closed = 1 << 60;
            carried.landings[1].cycles = 1 << 60;
        });
        let answer = read_on(&carried, &log(&[(1_000, 5, 0b1000)]));
        let landing = [(1 << 60) + 1, (1 << 60) + 100, 100, 0, 0];
        assert_eq!((answer.number, told(&answer).1[1]), (0, landing));
        assert_eq!(number(&answer.carried, &[]), 41);
        // The two logs joined are not refused.
        assert_eq!(number(&carried, &[(1_000, 5, 8), (1_001, 5, 0)]), 0);
    }

    #[test]
    fn lamps_marks_and_starts() {
        assert_eq!(number(&morning(), &[]), 0);
        // An open mark unlike its lamp: lit and not marked, dark and marked, 2 and above.
        for (place, mark) in [(1, 0), (0, 1), (2, 1), (1, 2), (0, 2), (3, 255)] {
            let carried = changed(|carried| carried.landings[place].open = mark);
            assert_eq!(number(&carried, &[]), 41);
        }
        // A lit lamp's start may be 0 and may be the last cycle.
        for (start, due) in [(0, 0), (1_000, 0), (1_001, 41)] {
            let carried = changed(|carried| carried.landings[1].start = start);
            assert_eq!(number(&carried, &[]), due);
        }
        for start in [1, 1_000] {
            let carried = changed(|carried| carried.landings[2].start = start);
            assert_eq!(number(&carried, &[]), 41);
        }
        // Bits above the four lamps.
        for high in [0x10, 0x20, 0x40, 0x80, 0xF0] {
            let carried = changed(|carried| carried.lamps |= high);
            assert_eq!(number(&carried, &[]), 41);
        }
    }

    #[test]
    fn what_is_not_named_is_not_refused() {
        let carried = changed(|carried| carried.landings[0].longest = 151);
        assert_eq!(number(&carried, &[]), 0);
        let carried = changed(|carried| carried.landings[2].cycles = 77);
        assert_eq!(number(&carried, &[]), 0);
        let carried = changed(|carried| carried.last = 1 << 48);
        assert_eq!(number(&carried, &[]), 0);
        assert_eq!(number(&carried, &[(LAST_CYCLE, 5, 0)]), 42);
    }

    #[test]
    fn cycles_do_not_fall() {
        let zeros = Carried::default();
        assert_eq!(number(&zeros, &[(0, 2, 1), (0, 3, 1), (0, 5, 1)]), 0);
        assert_eq!(number(&zeros, &[(256, 2, 1), (255, 3, 1)]), 42);
        assert_eq!(number(&zeros, &[(5, 2, 1), (6, 2, 1), (5, 2, 1)]), 42);
        assert_eq!(number(&morning(), &[(1_000, 2, 1)]), 0);
        assert_eq!(number(&morning(), &[(999, 2, 1)]), 42);
        // Ports and values.
        for (port, value, due) in [
            (0, 0, 0),
            (0, 1, 42),
            (0, 15, 42),
            (0, 255, 42),
            (1, 0, 42),
            (2, 15, 0),
            (2, 16, 42),
            (7, 15, 0),
            (8, 7, 0),
            (8, 8, 42),
            (9, 0, 42),
            (255, 0, 42),
            (5, 255, 42),
        ] {
            assert_eq!(number(&zeros, &[(3, port, value)]), due, "{port} {value}");
        }
    }

    #[test]
    fn a_reset_darkens_all_lamps_and_closes_their_waits() {
        let answer = first(&[(10, 5, 0b1101), (12, 2, 9), (30, 0, 0)]);
        let closed = [1, 20, 20, 0, 0];
        assert_eq!(told(&answer), (0, [closed, NONE, closed, closed]));
        assert_eq!((answer.carried.lamps, answer.carried.last), (0, 30));
        // Dark lamps stay dark, and a lamp lit again opens a wait.
        let answer = first(&[(10, 0, 0), (20, 5, 2), (25, 0, 0), (26, 0, 0), (26, 5, 2)]);
        assert_eq!(told(&answer), (0, [NONE, [1, 5, 5, 1, 26], NONE, NONE]));
        // A wait that is carried over is closed by the next log's reset.
        let answer = read_on(&morning(), &log(&[(1_000, 0, 0)]));
        let landings = [
            [2, 150, 100, 0, 0],
            [1, 100, 100, 0, 0],
            NONE,
            [1, 0, 0, 0, 0],
        ];
        assert_eq!(told(&answer), (0, landings));
        // What is lit in the log's own rising bits is told from dark lamps after a reset.
        let records = [(1_000, 5, 0b1010), (1_001, 0, 0), (1_002, 5, 0b1010)];
        assert_eq!(lamps_lit(morning().lamps, &log(&records)), [0, 1, 0, 1]);
    }

    #[test]
    fn a_start_after_closing_is_0() {
        let answer = read_on(&morning(), &log(&[(1_100, 5, 0)]));
        let landings = [
            [2, 150, 100, 0, 0],
            [1, 200, 200, 0, 0],
            NONE,
            [1, 100, 100, 0, 0],
        ];
        assert_eq!(told(&answer), (0, landings));
        assert_eq!(number(&answer.carried, &[]), 0);
    }

    #[test]
    fn no_sum_overflows() {
        let mut carried = Carried {
            lamps: 15,
            ..Carried::default()
        };
        for landing in &mut carried.landings {
            *landing = Landing {
                closed: 1 << 60,
                cycles: 1 << 60,
                longest: 1 << 60,
                open: 1,
                start: 0,
            };
        }
        let answer = read_on(&carried, &log(&[(LAST_CYCLE, 5, 0)]));
        let figures = [(1 << 60) + 1, (1 << 60) + LAST_CYCLE, 1 << 60, 0, 0];
        assert_eq!(told(&answer), (0, [figures; 4]));
    }

    #[test]
    fn a_log_split_anywhere_gives_the_answer_of_the_two_joined() {
        let sound = log(&[
            (3, 5, 0b0001),
            (3, 2, 9),
            (8, 5, 0b0110),
            (9, 5, 0b0110),
            (20, 8, 7),
            (21, 5, 0b1000),
            (21, 5, 0b0111),
            (40, 5, 0),
        ]);
        let landings = [
            [2, 24, 19, 0, 0],
            [2, 32, 19, 0, 0],
            [2, 32, 19, 0, 0],
            [1, 0, 0, 0, 0],
        ];
        assert_eq!(told(&read_on(&Carried::default(), &sound)), (0, landings));
        // The same with a 42 in its sixth record.
        let mut damaged = sound.clone();
        damaged[5 * 8 + 6] = 9;
        for log in [sound, damaged] {
            let joined = read_on(&Carried::default(), &log);
            for place in (0..=log.len()).step_by(8) {
                let part = read_on(&Carried::default(), &log[..place]);
                if part.number == 0 {
                    assert_eq!(read_on(&part.carried, &log[place..]), joined);
                } else {
                    assert_eq!(part, joined);
                }
            }
        }
    }

    #[test]
    fn closed_and_open_waits_rise_by_the_lamps_lit() {
        let records = [(1_000, 5, 0b1011), (1_010, 5, 0), (1_020, 5, 0b0011)];
        let log = log(&records);
        assert_eq!(lamps_lit(morning().lamps, &log), [2, 1, 0, 0]);
        let answer = read_on(&morning(), &log);
        let counts = |carried: &Carried| {
            let landings = carried.landings;
            landings.map(|landing| landing.closed + u64::from(landing.open))
        };
        assert_eq!(counts(&morning()), [2, 1, 0, 1]);
        assert_eq!(counts(&answer.carried), [4, 2, 0, 1]);
        // From dark lamps the same log lights more of them.
        assert_eq!(lamps_lit(0, &log), [2, 2, 0, 1]);
    }

    #[test]
    fn the_text_has_a_line_for_each_landing() {
        let answer = first(&[
            (10, 5, 1),
            (60, 5, 0),
            (200, 5, 1),
            (300, 5, 2),
            (400, 4, 9),
        ]);
        let text = "\
landing closed cycles longest open
0 2 150 100 0
1 0 0 0 1
2 0 0 0 0
3 0 0 0 0
";
        assert_eq!(report_text(&answer), text);
        let refused = |log: &[u8]| report_text(&read_on(&Carried::default(), log));
        assert_eq!(refused(&[0; 7]), "refused 41\n");
        assert_eq!(refused(&[1; 8]), "refused 42\n");
    }
}

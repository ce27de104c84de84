//! Lists of slices: how they are drawn, and which call is refused between two slices.

use reference::case::{next, top};
use reference::{Runner, Sheet};

/// The most slices of a drawn list.
const SLICES: u64 = 20;

/// A call that is refused: it stands after a slice and changes nothing.
#[derive(Clone, Copy, PartialEq, Eq, Debug)]
pub enum Refused {
    /// A ROM of 1,999 bytes: 21.
    Rom,
    /// A schedule of 7 bytes: 11.
    Schedule,
    /// A save to 81 bytes; of the board's call, a report of 31: 1.
    Buffer,
    /// An image of 80 bytes: 31.
    Length,
    /// 2^64 - 1 cycles: 2.
    Cycles,
    /// An image that doesn't begin with `U43`: 32.
    Mark,
    /// An image of version 1 with 82 bytes: 33.
    Version,
    /// An image with an Acc of 16: 34.
    Field,
    /// A sheet that is refused, the one at this place among `sheets::wrong`: 71.
    Sheet(usize),
    /// Another legal sheet, which the ROM isn't of: 21.
    OtherSheet,
    /// An image that holds something which the chip doesn't have: 34.
    Absent,
}

/// Those of every panel.
pub const ALL: [Refused; 8] = [
    Refused::Rom,
    Refused::Schedule,
    Refused::Buffer,
    Refused::Length,
    Refused::Cycles,
    Refused::Mark,
    Refused::Version,
    Refused::Field,
];

impl Refused {
    pub fn number(self) -> u8 {
        match self {
            Refused::Rom => 21,
            Refused::Schedule => 11,
            Refused::Buffer => 1,
            Refused::Length => 31,
            Refused::Cycles => 2,
            Refused::Mark => 32,
            Refused::Version => 33,
            Refused::Field | Refused::Absent => 34,
            Refused::Sheet(_) => 71,
            Refused::OtherSheet => 21,
        }
    }

    /// The byte of an image that is changed, and what it becomes, under a sheet.
    pub fn damage(self, sheet: Sheet) -> Option<(usize, u8)> {
        match self {
            Refused::Mark => Some((0, b'V')),
            Refused::Version => Some((4, 1)),
            Refused::Field => Some((14, 16)),
            Refused::Absent => Some(absent(sheet)),
            _ => None,
        }
    }

    /// The call of a number: none for 0; under a smaller sheet one that looks at the sheet, by a second number.
    fn of(number: u64, second: u64, is_smaller: bool) -> Option<Refused> {
        match number.checked_sub(1) {
            Some(place) => ALL.get(place as usize).copied(),
            None if is_smaller => Some(match second % 3 {
                0 => Refused::Sheet(second as usize / 3),
                1 => Refused::OtherSheet,
                _ => Refused::Absent,
            }),
            None => None,
        }
    }
}

/// A byte of an image of what this sheet doesn't have: of the first row that is absent, else of the last level, else Acc's.
fn absent(sheet: Sheet) -> (usize, u8) {
    match (0..5).find(|row| sheet.rows >> row & 1 == 0) {
        Some(row) => (27 + 8 * row + 7, 1),
        None if sheet.levels < 3 => (12, 1),
        None => (14, 16),
    }
}

/// A run, and the call that is refused after it.
#[derive(Clone, PartialEq, Eq, Debug)]
pub struct Slice {
    pub runner: Runner,
    pub cycles: u64,
    pub refused: Option<Refused>,
    /// Whether the image goes by way of version 1 to the next slice, where its count is 0; else that is refused.
    pub old: bool,
}

fn runner(bit: u64) -> Runner {
    if bit == 0 {
        Runner::Plain
    } else {
        Runner::Skipping
    }
}

/// The run of n cycles cut after k of them. Five of six cuts have a refused call; under a smaller sheet all have one.
pub fn cut(n: u64, k: u64, is_smaller: bool) -> Vec<Slice> {
    vec![
        Slice {
            runner: runner(k % 2),
            cycles: k,
            refused: Refused::of(
                match k % 6 {
                    4 => [4, 6, 7, 8][k as usize / 6 % 4],
                    other => other,
                },
                k / 6,
                is_smaller,
            ),
            old: k % 3 == 1,
        },
        Slice {
            runner: runner(k / 2 % 2),
            cycles: n - k,
            refused: None,
            old: false,
        },
    ]
}

/// So many lists of n cycles.
pub fn drawn(n: u64, count: u16, seed: u32, is_smaller: bool) -> Vec<Vec<Slice>> {
    let mut s = seed;
    (0..count).map(|_| one(n, &mut s, is_smaller)).collect()
}

fn one(n: u64, s: &mut u32, is_smaller: bool) -> Vec<Slice> {
    *s = next(*s);
    let count = 1 + u64::from(top(*s)) % SLICES;
    let mut left = n;
    let mut slices = Vec::new();
    for place in 1..=count {
        *s = next(*s);
        let x = u64::from(top(*s));
        *s = next(*s);
        let drawn = u64::from(*s >> 16) % (2 * n / count + 1);
        let cycles = if place == count {
            left
        } else {
            drawn.min(left)
        };
        left -= cycles;
        slices.push(Slice {
            runner: runner(x / 128),
            cycles,
            refused: Refused::of(
                match x % 8 {
                    7 => 7 + x / 8 % 2,
                    other => other,
                },
                x / 8,
                is_smaller,
            ),
            old: x / 64 % 2 == 1,
        });
    }
    slices
}

/// The calls of these lists that are refused.
pub fn refused(lists: &[Vec<Slice>]) -> Vec<Refused> {
    let slices = lists.iter().flatten();
    slices.filter_map(|slice| slice.refused).collect()
}

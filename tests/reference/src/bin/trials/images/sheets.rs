//! The groups of smaller chips: what is absent is zero, "else 34"; images of one sheet under another; sheets that are none.

use reference::case::state_bytes;
use reference::sheets::{wrong, HALF, LEAST, PAGE};
use reference::{Sheet, State, Version};

use super::bases::{self, Shape, CYCLE, IMAGE, RAM, VALUE};
use super::group::{Group, Trial};
use super::{byte_numbers, has_width, Named, ROW};

/// The chips, each with the place of the state that it is tried with.
const CHIPS: [(Sheet, &str, usize); 3] = [
    (LEAST, "the least chip", 0),
    (HALF, "half a chip", 1),
    (PAGE, "a chip of one page", 2),
];

pub fn groups(states: &[Named]) -> Vec<Group> {
    let mut groups = Vec::new();
    for (sheet, name, base) in CHIPS {
        let (_, state) = &states[base];
        let state = sheet.fitted(state);
        groups.extend(bytes(sheet, name, &state, base));
        groups.extend(drawn(sheet, name));
        groups.extend(buffers(sheet, name, states));
        if base < 2 {
            groups.extend(values(sheet, name, &state, base));
        }
    }
    groups.extend(between(states));
    groups.extend(no_sheets(states));
    groups
}

/// Whether a byte of an image is of a row or a level that isn't there.
fn is_absent(sheet: Sheet, place: usize) -> bool {
    match place {
        7..=12 => (place - 7) / 2 >= sheet.levels as usize,
        27..=66 => sheet.rows >> ((place - 27) / 8) & 1 == 0,
        _ => false,
    }
}

/// The same of a byte of a value, whose stack stands before its RAM.
fn is_absent_value(sheet: Sheet, place: usize) -> bool {
    match place {
        2..=7 => (place - 2) / 2 >= sheet.levels as usize,
        28..=107 => sheet.rows >> ((place - 28) / ROW) & 1 == 0,
        _ => false,
    }
}

/// Every byte of an image at every value.
fn bytes(sheet: Sheet, name: &str, state: &State, base: usize) -> Vec<Group> {
    let group = |place: usize| Group {
        name: format!("{name}: byte {place}"),
        trial: Trial::Byte {
            image: bases::image(state),
            place,
        },
        base: base as u8,
        at: place as u8,
        numbers: if is_absent(sheet, place) {
            vec![0, 34]
        } else {
            byte_numbers(place)
        },
        sheet,
    };
    (0..IMAGE).map(group).collect()
}

/// Every byte of a state as a value, the RAM by rows.
fn values(sheet: Sheet, name: &str, state: &State, base: usize) -> Vec<Group> {
    let singles = (0..RAM.start).chain(RAM.end..VALUE).map(|place| (place, 1));
    let rows = RAM.step_by(ROW).map(|place| (place, ROW));
    let group = |(place, count): (usize, usize)| {
        let mut numbers = vec![0, 1];
        if has_width(place) || is_absent_value(sheet, place) {
            numbers.push(34);
        }
        // "a version 1 image wanted while the count isn't 0"
        if place == CYCLE.end {
            numbers.push(54);
        }
        Group {
            name: format!("{name} as a value: {count} from {place} on"),
            trial: Trial::Value {
                state: state_bytes(state),
                place,
                count,
            },
            base: base as u8,
            at: place as u8,
            numbers,
            sheet,
        }
    };
    singles.chain(rows).map(group).collect()
}

/// Bytes within their widths, zeros for what is absent; and the same with something in two bytes of it at times.
fn drawn(sheet: Sheet, name: &str) -> Vec<Group> {
    let mut fitted: Shape = bases::narrow(Version::Two, 0);
    let absent: Vec<usize> = (0..IMAGE)
        .filter(|&place| is_absent(sheet, place))
        .collect();
    for &place in &absent {
        fitted[place] = (0, 1);
    }
    let mut held = fitted;
    for place in [absent[0], absent[absent.len() - 1]] {
        held[place] = (0, 2);
    }
    [("within widths", fitted), ("something absent", held)]
        .into_iter()
        .enumerate()
        .map(|(base, (words, shape))| Group {
            name: format!("{name}, drawn: {words}"),
            trial: Trial::Drawn {
                shape,
                tries: 4_000,
                shortest: IMAGE as u8,
                lengths: 1,
                seed: 71 + 7_919 * base as u32,
            },
            base: base as u8,
            at: IMAGE as u8,
            numbers: vec![0, 34],
            sheet,
        })
        .collect()
}

/// States saved to buffers of every length: zeros for what is absent, and not.
fn buffers(sheet: Sheet, name: &str, states: &[Named]) -> Vec<Group> {
    let mut groups = Vec::new();
    for (base, (state_name, state)) in states.iter().enumerate().take(3) {
        let fitted = sheet.fitted(state);
        let is_fitted = fitted == *state;
        for (words, state, numbers) in [
            ("fitted", &fitted, vec![0, 1]),
            (
                "whole",
                state,
                if is_fitted { vec![0, 1] } else { vec![34] },
            ),
        ] {
            groups.push(Group {
                name: format!("{name}, {state_name}, {words}: every buffer"),
                trial: Trial::Buffer {
                    state: state_bytes(state),
                    version: Version::Two,
                },
                base: base as u8,
                at: 0,
                numbers,
                sheet,
            });
        }
    }
    groups
}

/// An image of one sheet torn over one of another, under the other, up to the whole image of the one.
fn between(states: &[Named]) -> Vec<Group> {
    let mut groups = Vec::new();
    let chips = || CHIPS.into_iter().chain([(Sheet::UPD546, "the uPD546", 0)]);
    for (at, (sheet, name, _)) in chips().enumerate() {
        for (one, one_name, _) in chips().filter(|(one, ..)| *one != sheet) {
            for (base, (state_name, state)) in states.iter().enumerate().skip(1).take(2) {
                let (first, rest) = (one.fitted(state), sheet.fitted(state));
                let is_fitted = sheet.fitted(&first) == first;
                groups.push(Group {
                    name: format!("{state_name} of {one_name}, then of {name}, under it"),
                    trial: Trial::Torn {
                        first: bases::image(&first),
                        rest: bases::image(&rest),
                    },
                    base: base as u8,
                    at: at as u8,
                    numbers: if is_fitted { vec![0] } else { vec![0, 34] },
                    sheet,
                });
            }
        }
    }
    groups
}

/// Sheets that are refused: a sound image cut and extended to every length, and saves to buffers of every length.
fn no_sheets(states: &[Named]) -> Vec<Group> {
    let mut groups = Vec::new();
    let (state_name, state) = &states[1];
    for (at, sheet) in wrong(HALF).into_iter().enumerate() {
        let Sheet { rom, rows, levels } = sheet;
        let state = HALF.fitted(state);
        let lengths = Trial::Length {
            image: bases::image(&state),
            seed: 0,
        };
        let buffers = Trial::Buffer {
            state: state_bytes(&state),
            version: Version::Two,
        };
        for (words, trial) in [("length", lengths), ("buffer", buffers)] {
            groups.push(Group {
                name: format!("a sheet of {rom}, {rows}, {levels}, {state_name}: every {words}"),
                trial,
                base: 1,
                at: at as u8,
                numbers: vec![71],
                sheet,
            });
        }
    }
    groups
}

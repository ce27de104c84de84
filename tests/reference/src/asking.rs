//! Panels that ask their lines, for request R-12. One asks port A once and ends as it is told: of a schedule every number of first records
//! can so be made to finish or to stop at will. The others are drawn, and ask again and again.

use crate::case::record;
use crate::draw::Draw;

/// The cycle in which it asks, from the fresh state. Up to there it does nothing.
pub const ASKS: u64 = 16;

/// The code, within one page, that asks bits 0 and 1 of port A, and then goes round where its end for their value is 0, or stops with 22 or
/// 23.
pub fn asking(ends: [u8; 4]) -> Vec<u8> {
    let mut code = vec![0; 64];
    // TPA 0, JCP 020, TPA 1, JCP 018; at 020 TPA 1, JCP 028.
    code[0x10..0x14].copy_from_slice(&[0x54, 0xE0, 0x55, 0xD8]);
    code[0x20..0x22].copy_from_slice(&[0x55, 0xE8]);
    for (end, at) in ends.into_iter().zip([0x28, 0x18, 0x22, 0x14]) {
        let stop: &[u8] = match end {
            // JMP 7FF, which no chip has.
            22 => &[0xA7, 0xFF],
            23 => &[0x1C],
            // JCP to itself.
            _ => &[0xC0 | at],
        };
        let at = usize::from(at);
        code[at..at + stop.len()].copy_from_slice(stop);
    }
    code
}

/// A schedule that gives port A these values, one in each cycle from this one on.
pub fn values_from(cycle: u64, values: &[u8]) -> Vec<u8> {
    let records = (cycle..).zip(values);
    records
        .flat_map(|(at, value)| record(at, value << 4, 0, 1))
        .collect()
}

/// Code within one page that goes from one of sixteen places to the other: most ask a bit of a port and go to one of two, some write, wait on
/// the timer or enable the interrupt, and a few stop.
pub fn questions(draw: &mut Draw) -> Vec<u8> {
    let stops = draw.of(&[1, 2, 4]);
    (0..64)
        .step_by(4)
        .flat_map(|at| place(draw, at, stops))
        .collect()
}

fn place(draw: &mut Draw, at: u8, stops: u64) -> [u8; 4] {
    let [one, other] = [0; 2].map(|_| 0xC0 | 4 * draw.upto(15));
    let bit = draw.upto(3);
    match draw.below(20) {
        place if place < stops => draw.of(&[[0x1C, 0, 0, 0], [0x45, 0, 0, 0], [0xA7, 0xFF, 0, 0]]),
        // OCD; OE; EI; LDZ, which names the port that TPB asks.
        4 => [0x1E, draw.byte(), one, other],
        5 => [0x44, one, other, 0],
        6 => [0x31, one, other, 0],
        7 | 8 => [0x80 | draw.upto(3), one, other, 0],
        // STM, TTM and JCP back to it; then the next place.
        9 => [0x14, 0x80 | draw.upto(2), 0x05, 0xC0 | (at + 2)],
        // TPB; TPA.
        10..=13 => [0x50 | bit, one, other, 0],
        _ => [0x54 | bit, one, other, 0],
    }
}

/// All rows of so many numbers below this one.
pub fn rows(length: usize, below: u8) -> Vec<Vec<u8>> {
    (0..length).fold(vec![Vec::new()], |rows, _| {
        let longer = |row: &Vec<u8>| {
            (0..below)
                .map(|value| [&row[..], &[value]].concat())
                .collect::<Vec<_>>()
        };
        rows.iter().flat_map(longer).collect()
    })
}

#[cfg(test)]
mod tests {
    use super::*;
    use crate::machine::State;
    use crate::runners::{run, Runner};
    use crate::sheet::Sheet;

    #[test]
    fn it_ends_as_it_is_told() {
        let sheet = Sheet {
            rom: 64,
            ..Sheet::UPD546
        };
        for ends in rows(4, 3) {
            let ends: Vec<u8> = ends
                .iter()
                .map(|&end| [0, 22, 23][usize::from(end)])
                .collect();
            let code = asking([ends[0], ends[1], ends[2], ends[3]]);
            for value in 0..4 {
                let schedule = values_from(ASKS, &[value]);
                let state = State::fresh();
                let end = run(Runner::Plain, &code, &schedule, &state, &mut [], 40, sheet);
                assert_eq!(end.number, ends[usize::from(value)]);
                // Too late to be asked.
                let schedule = values_from(ASKS + 4, &[value]);
                let end = run(Runner::Plain, &code, &schedule, &state, &mut [], 40, sheet);
                assert_eq!(end.number, ends[0]);
            }
        }
    }
}

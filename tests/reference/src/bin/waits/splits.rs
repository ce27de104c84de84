//! Logs that are split: the second part is read on from what the first one answered, and answers what
//! the two joined do.

use reference::log::RECORD;
use reference::waiting::Ground;

use crate::carried::evening;
use crate::case::{cut, log, Case, Due, Source};

pub fn cases() -> Vec<Case> {
    let mut cases = Vec::new();
    for (name, log) in logs() {
        cases.extend(at_every_record(name, Source::Empty, &log, None));
        let parts = vec![1; log.len() / RECORD];
        let name = format!("{name}, record by record");
        cases.extend(cut(&name, Source::Empty, &log, &parts));
    }
    let (_, busy) = &logs()[0];
    for (place, byte, wrong, ground) in [
        (0, 6, 9, Ground::Port),
        (4, 7, 16, Ground::Value),
        (6, 5, 0, Ground::Cycle),
        (11, 6, 1, Ground::Port),
    ] {
        let mut damaged = busy.clone();
        damaged[place * RECORD + byte] = wrong;
        let name = format!("{ground:?} in record {place}");
        let wrong = Some((place, ground));
        cases.extend(at_every_record(&name, Source::Empty, &damaged, wrong));
    }
    let from = Source::Given(evening());
    cases.extend(at_every_record("an evening", from, &after_evening(), None));
    cases.extend(inside_records(busy));
    cases
}

/// The joined log, and the record that it is refused for; then for each place its first part, and the
/// rest read on from there. The rest of a refused part isn't read.
pub fn at_every_record(
    name: &str,
    from: Source,
    log: &[u8],
    wrong: Option<(usize, Ground)>,
) -> Vec<Case> {
    let due = match wrong {
        None => Due::Accepted,
        Some((_, ground)) => Due::Alone(ground),
    };
    let mut cases = vec![Case::new(name, from, log.to_vec()).due(due)];
    for place in 0..=log.len() / RECORD {
        let (first, rest) = log.split_at(place * RECORD);
        let part = Case::new(
            format!("{name}, split at {place}, first"),
            from,
            first.to_vec(),
        );
        if wrong.is_some_and(|(record, _)| record < place) {
            cases.push(part.due(due).same(1));
            continue;
        }
        let whole = Case::new(
            format!("{name}, split at {place}, rest"),
            Source::Before,
            rest.to_vec(),
        );
        cases.extend([part, whole.due(due).same(2)]);
    }
    cases
}

/// Both parts are torn; the second is read from zeros.
fn inside_records(log: &[u8]) -> Vec<Case> {
    let mut cases = Vec::new();
    for place in 1..RECORD {
        let (first, rest) = log.split_at(3 * RECORD + place);
        for (what, part) in [("first", first), ("rest", rest)] {
            let name = format!("split at byte {place} of record 3, {what}");
            let case = Case::new(name, Source::Before, part.to_vec());
            cases.push(case.alone(Ground::Length));
        }
    }
    cases
}

fn logs() -> Vec<(&'static str, Vec<u8>)> {
    let busy = [
        (3, 5, 0b0001),
        (3, 2, 9),
        (8, 5, 0b0110),
        (9, 5, 0b0110),
        (20, 8, 7),
        (21, 5, 0b1000),
        (21, 5, 0b0111),
        (40, 5, 0b1111),
        (300, 3, 0),
        (300, 5, 0b0000),
        (70_000, 5, 0b1001),
        (70_001, 7, 15),
    ];
    let at_once = [
        (7, 5, 15),
        (7, 5, 0),
        (7, 5, 15),
        (7, 4, 3),
        (7, 5, 0),
        (7, 5, 5),
        (7, 5, 10),
    ];
    let wide = [
        (0, 5, 15),
        (1 << 16, 5, 7),
        (1 << 24, 5, 11),
        (1 << 32, 5, 4),
        (1 << 40, 5, 9),
        ((1 << 48) - 1, 5, 0),
    ];
    let others = [
        (1, 2, 15),
        (2, 3, 0),
        (2, 4, 1),
        (3, 6, 5),
        (9, 7, 8),
        (9, 8, 2),
    ];
    vec![
        ("a busy log", log(&busy)),
        ("all in one cycle", log(&at_once)),
        ("long waits", log(&wide)),
        ("other ports", log(&others)),
    ]
}

/// Of the two waits that are open, the one that began in the last cycle is closed in the same.
fn after_evening() -> Vec<u8> {
    log(&[
        (70_000, 5, 0b0101),
        (70_000, 5, 0b0001),
        (70_010, 2, 1),
        (70_300, 5, 0b1000),
        (70_301, 5, 0b1010),
        (71_000, 5, 0b0000),
        (71_000, 5, 0b0100),
        (72_000, 8, 7),
    ])
}

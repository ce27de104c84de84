//! What the cases are for is what they reach.

use std::sync::OnceLock;

use reference::log::RECORD;
use reference::waiting::{grounds, Ground, Landing};

use super::*;
use crate::case::{Due, Source, LONGEST};

/// All cases, made once.
fn cases() -> &'static [Case] {
    static CASES: OnceLock<Vec<Case>> = OnceLock::new();
    CASES.get_or_init(all_cases)
}

fn answer_of(cases: &[Case], name: &str) -> Answer {
    let place = cases.iter().position(|case| case.name == name);
    let place = place.expect("a case of this name");
    answers(cases)[place].1.clone()
}

#[test]
fn every_case_and_every_input_is_answered_as_it_says() {
    let none: Vec<String> = Vec::new();
    assert_eq!(faults::all(cases(), &answers(cases())), none);
    assert_eq!(inputs::faults(&inputs::all()), none);
}

#[test]
fn a_kind_that_is_wanting_is_a_fault() {
    let answers = answers(cases());
    assert_eq!(faults::wanting(cases(), &answers), Vec::<String>::new());
    for ground in Ground::ALL {
        let rest = cases().iter().zip(&answers);
        let (cases, answers): (Vec<Case>, Vec<_>) = rest
            .filter(|(case, _)| case.due != Due::Alone(ground))
            .map(|(case, answer)| (case.clone(), answer.clone()))
            .unzip();
        let wanting = faults::wanting(&cases, &answers);
        assert!(wanting.contains(&format!("no case of {ground:?} alone")));
    }
    // Without a case all are wanting.
    assert_eq!(faults::wanting(&[], &[]).len(), 9 + 14);
    let mut inputs = inputs::all();
    inputs.retain(|input| input.due != Due::Alone(Ground::Value));
    assert_eq!(inputs::faults(&inputs), ["no input: Alone(Value)"]);
}

#[test]
fn an_answer_that_is_not_due_is_a_fault() {
    let mut cases = cases().to_vec();
    let place = cases
        .iter()
        .position(|case| case.same.is_some() && case.due == Due::Accepted)
        .expect("a log that was cut");
    let count = |cases: &[Case]| faults::all(cases, &answers(cases)).len();
    for due in [
        Due::Refused(41),
        Due::Refused(42),
        Due::Alone(Ground::Length),
    ] {
        cases[place].due = due;
        assert_eq!(count(&cases), 1);
    }
    cases[place].due = Due::Accepted;
    assert_eq!(count(&cases), 0);
    // Another cycle in the part is another answer.
    let last = cases[place].log.len() - 3;
    cases[place].log[last] += 1;
    assert!(count(&cases) > 0);
}

#[test]
fn a_ground_beside_the_one_named_is_a_fault() {
    let both = grounds(
        &Carried {
            lamps: 16,
            ..Carried::default()
        },
        &[0; 7],
    );
    assert!(Due::Refused(41).fits(&both));
    assert!(!Due::Refused(42).fits(&both));
    assert!(!Due::Alone(Ground::Length).fits(&both));
    assert!(!Due::Alone(Ground::Lamps).fits(&both));
    assert!(!Due::Accepted.fits(&both));
}

#[test]
fn what_document_02_says_of_every_answer_is_held() {
    let carried = carried::morning();
    let log = case::log(&[(1_000, 5, 0b1001), (1_200, 5, 0)]);
    let sound = read_on(&carried, &log);
    assert!(faults::of_answer(&carried, &log, &sound).is_empty());
    let changes: [fn(&mut Carried); 5] = [
        |carried| carried.landings[0].closed += 1,
        |carried| carried.landings[2].open = 1,
        |carried| carried.landings[0].start = 1_000,
        |carried| carried.lamps = 1,
        |carried| carried.lamps = 16,
    ];
    for change in changes {
        let mut answer = sound.clone();
        change(&mut answer.carried);
        assert!(!faults::of_answer(&carried, &log, &answer).is_empty());
    }
    let mut refused = sound;
    refused.number = 42;
    assert!(!faults::of_answer(&carried, &log, &refused).is_empty());
}

#[test]
fn the_lobby_waits_as_its_comments_say() {
    let mut carried = Carried {
        lamps: 0b0010,
        last: 1_114,
        ..Carried::default()
    };
    carried.landings[0] = Landing {
        closed: 2,
        cycles: 107 + 205,
        longest: 205,
        ..Landing::default()
    };
    carried.landings[1] = Landing {
        open: 1,
        start: 926,
        ..Landing::default()
    };
    carried.landings[2] = Landing {
        closed: 1,
        cycles: 790,
        longest: 790,
        ..Landing::default()
    };
    let answer = Answer { number: 0, carried };
    for name in [
        "sample lobby by 100 cycles",
        "sample lobby by 100 cycles, slice 11",
        "sample lobby by 450 cycles, slice 2",
    ] {
        assert_eq!(answer_of(cases(), name), answer, "{name}");
    }
}

#[test]
fn the_file_holds_the_cases() {
    let cases = cases();
    let file = file_of(cases);
    assert_eq!(file[..2], (cases.len() as u16).to_be_bytes());
    let mut rest = &file[2..];
    for case in cases {
        let length = usize::from(u16::from_be_bytes([rest[1], rest[2]]));
        let carried = match case.from {
            Source::Empty => 0,
            Source::Before => 1,
            Source::Given(_) => 2,
        };
        assert_eq!((rest[0], length), (carried, case.log.len()));
        assert!(length <= LONGEST);
        let start = if carried == 2 { 3 + 141 } else { 3 };
        assert_eq!(rest[start..start + length], case.log);
        rest = &rest[start + length..];
    }
    assert!(rest.is_empty());
}

#[test]
fn the_text_has_23_numbers_for_each_case() {
    let cases = cases();
    let text = text_of(&answers(cases));
    let lines: Vec<&str> = text.lines().collect();
    assert_eq!(lines.len(), cases.len() + 2);
    assert!(lines[0].starts_with("number lamps last closed cycles longest open start closed"));
    assert_eq!(lines[cases.len() + 1], format!("{} cases", cases.len()));
    for line in &lines[..=cases.len()] {
        assert_eq!(line.split(' ').count(), 23, "{line}");
    }
    let numbers = |word: &str| word.parse::<u64>().is_ok();
    assert!(lines[1..=cases.len()]
        .iter()
        .all(|line| line.split(' ').all(numbers)));
}

#[test]
fn a_case_is_told_in_full() {
    let cases = [
        Case::new("lit", Source::Empty, case::log(&[(7, 5, 2)])),
        Case::new("torn", Source::Before, {
            let log = case::log(&[(9, 5, 0), (300, 255, 16)]);
            log[..2 * RECORD - 1].to_vec()
        }),
    ];
    let told = show(&cases);
    let text = "
carried
  landing closed cycles longest open start
  0 0 0 0 0 0
  1 0 0 0 1 7
  2 0 0 0 0 0
  3 0 0 0 0 0
  lamps 0010, last cycle 7

log of 15 bytes
  cycle port value
  9 F 0
  7 bytes more: [00, 00, 00, 00, 01, 2C, FF]

answer 41 Length
  landing closed cycles longest open start
  0 0 0 0 0 0
  1 0 0 0 0 0
  2 0 0 0 0 0
  3 0 0 0 0 0
  lamps 0000, last cycle 0
";
    assert!(told.starts_with(&titles()));
    assert!(told.ends_with(text), "{told}");
    assert_eq!(
        told.lines().nth(1),
        Some("41 0 0 0 0 0 0 0 0 0 0 0 0 0 0 0 0 0 0 0 0 0 0")
    );
}

//! What is wrong with the cases: an answer that isn't due, and a kind that is wanting.

use reference::log::{records, RESET};
use reference::waiting::{grounds, lamps_lit, Answer, Carried, Ground, LANDINGS, LARGEST};

use crate::case::{Case, Due, Source};

/// Each case has to be answered as it says; each kind has to be there.
pub fn all(cases: &[Case], answers: &[(Carried, Answer)]) -> Vec<String> {
    let mut faults = Vec::new();
    for (place, (case, (carried, answer))) in cases.iter().zip(answers).enumerate() {
        let mut fault = |text: String| faults.push(format!("{}: {text}", case.name));
        let found = grounds(carried, &case.log);
        if !case.due.fits(&found) {
            fault(format!("{} for {found:?}", answer.number));
        }
        if case
            .same
            .is_some_and(|back| answers[place - back].1 != *answer)
        {
            fault(String::from("not the answer of the joined log"));
        }
        for text in of_answer(carried, &case.log, answer) {
            fault(text.to_string());
        }
    }
    faults.extend(wanting(cases, answers));
    faults
}

/// What document 02 says of every answer: "all zeros", or waits raised "by the lamps lit" and something
/// that can be carried on but for its figures.
pub fn of_answer(carried: &Carried, log: &[u8], answer: &Answer) -> Vec<&'static str> {
    let mut faults = Vec::new();
    if answer.number != 0 {
        if answer.carried != Carried::default() {
            faults.push("an error that doesn't answer all zeros");
        }
        return faults;
    }
    let lit = lamps_lit(carried.lamps, log);
    let rises = |place: usize| waits(&answer.carried, place) - waits(carried, place);
    if (0..LANDINGS).any(|place| rises(place) != i128::from(lit[place])) {
        faults.push("closed and open waits don't rise by the lamps lit");
    }
    let mut on = grounds(&answer.carried, &[]);
    on.remove(&Ground::Figure);
    if !on.is_empty() {
        faults.push("the answer can't be carried on");
    }
    faults
}

/// Closed plus open waits.
fn waits(carried: &Carried, place: usize) -> i128 {
    let landing = carried.landings[place];
    i128::from(landing.closed) + i128::from(landing.open)
}

/// A kind of cases by its name.
type Kind = (&'static str, fn(&Case, &Carried, &Answer) -> bool);

/// The kinds, besides each ground alone.
const KINDS: [Kind; 14] = [
    ("accepted from an empty report", |case, _, answer| {
        case.from == Source::Empty && answer.number == 0
    }),
    ("accepted from what is given", |case, _, answer| {
        matches!(case.from, Source::Given(_)) && answer.number == 0
    }),
    ("read on as the joined log", |case, _, answer| {
        case.from == Source::Before && case.same.is_some() && answer.number == 0
    }),
    ("read on and 42 as the joined log", |case, _, answer| {
        case.from == Source::Before && case.same.is_some() && answer.number == 42
    }),
    ("read on from an answer above 2^60", |case, _, _| {
        case.from == Source::Before && case.due == Due::Alone(Ground::Figure)
    }),
    ("closed waits above 2^60", |_, _, answer| {
        let mut landings = answer.carried.landings.iter();
        landings.any(|landing| landing.closed > LARGEST)
    }),
    ("cycles above 2^60", |_, _, answer| {
        let mut landings = answer.carried.landings.iter();
        landings.any(|landing| landing.cycles > LARGEST)
    }),
    ("a torn log with a port of 1", |case, _, _| {
        case.due == Due::Alone(Ground::Length) && has_port_1(case)
    }),
    ("lamps above 15 and a port of 1", |case, _, _| {
        case.due == Due::Alone(Ground::Lamps) && has_port_1(case)
    }),
    ("a wait of 0 cycles", |_, carried, answer| {
        let mut landings = answer.carried.landings.iter().zip(carried.landings);
        landings
            .any(|(after, before)| after.closed > before.closed && after.cycles == before.cycles)
    }),
    ("four waits that are open", |_, _, answer| {
        answer.carried.lamps == 15
    }),
    ("a reset that closes four waits", |case, carried, answer| {
        let reset = records(&case.log)
            .next()
            .is_some_and(|record| record.port == RESET);
        carried.lamps == 15 && reset && answer.number == 0
    }),
    ("a reset as the last record", |case, _, answer| {
        let last = records(&case.log).last();
        last.is_some_and(|record| record.port == RESET) && answer.number == 0
    }),
    ("1 on the port of a reset", |case, _, _| {
        let mut records = records(&case.log);
        let wrong = records.any(|record| (record.port, record.value) == (RESET, 1));
        wrong && case.due == Due::Alone(Ground::Value)
    }),
];

fn has_port_1(case: &Case) -> bool {
    records(&case.log).any(|record| record.port == 1)
}

/// The kinds of which there is no case.
pub fn wanting(cases: &[Case], answers: &[(Carried, Answer)]) -> Vec<String> {
    let mut faults = Vec::new();
    for ground in Ground::ALL {
        if !cases.iter().any(|case| case.due == Due::Alone(ground)) {
            faults.push(format!("no case of {ground:?} alone"));
        }
    }
    for (name, holds) in KINDS {
        let mut pairs = cases.iter().zip(answers);
        if !pairs.any(|(case, (carried, answer))| holds(case, carried, answer)) {
            faults.push(format!("no case: {name}"));
        }
    }
    faults
}

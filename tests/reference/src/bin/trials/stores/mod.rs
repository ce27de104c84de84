//! Stores and recalls of images under names, request R-7: groups of calls on sound and damaged stores, and drawn lists.

mod kinds;
mod steps;

use std::collections::BTreeSet;

use reference::case::digest;
use reference::kinds::{all_of, counts_of, Count};
use reference::Sheet;

use crate::stream::{Chain, Of, Stream};
use crate::{Item, Items};
use kinds::KINDS;
use steps::{play, Answer, Group, Step};

pub fn all() -> Items {
    items(all_of(&KINDS))
}

/// All calls that are told in a line, and the first lists.
pub fn small() -> Items {
    let groups = all_of(&KINDS);
    let (lines, others): (Vec<Group>, Vec<Group>) =
        groups.into_iter().partition(|group| group.calls() == 1);
    items(
        lines
            .into_iter()
            .chain(others.into_iter().take(4))
            .collect(),
    )
}

fn items(groups: Vec<Group>) -> Items {
    let item = |group| Box::new(group) as Box<dyn Item>;
    groups.into_iter().map(item).collect()
}

/// How many groups there are of each kind, and how many calls.
pub fn counts() -> Vec<Count> {
    let mut counts = counts_of("stores", &KINDS);
    let calls = all_of(&KINDS).iter().map(Group::calls).sum();
    counts.push((String::from("stores/calls"), calls));
    counts
}

/// What is wrong with the groups: a number that isn't due, or one that no call of either sort answers.
pub fn faults() -> Vec<String> {
    let groups = all_of(&KINDS);
    let mut faults: Vec<String> = groups.iter().filter_map(Group::fault).collect();
    let (mut kept, mut recalled) = (BTreeSet::new(), BTreeSet::new());
    for group in &groups {
        play(&group.steps, |_, answer| match answer {
            Some(Answer::Kept(number, _)) => drop(kept.insert(number)),
            Some(Answer::Recalled(number, ..)) => drop(recalled.insert(number)),
            None => {}
        });
    }
    if kept != BTreeSet::from([0, 51, 53, 71]) || recalled != BTreeSet::from([0, 51, 52, 71]) {
        faults.push(format!("stores answer {kept:?}, recalls {recalled:?}"));
    }
    faults
}

impl Item for Group {
    fn name(&self) -> String {
        self.name.clone()
    }

    fn put(&self, stream: &mut Stream) -> String {
        let of = if self.calls() == 1 {
            Of::Line
        } else {
            Of::Group
        };
        let (mut chain, mut line) = (Chain::default(), String::new());
        stream.sheet(Sheet::UPD546);
        stream.store(&[]);
        stream.name(&[]);
        stream.image(&[]);
        play(&self.steps, |step, answer| {
            put_step(stream, step, of);
            if let Some(answer) = answer {
                chained(&mut chain, &answer);
                line = told(&answer);
            }
        });
        if of == Of::Line {
            return line;
        }
        stream.tell_group();
        chain.line()
    }

    fn show(&self) -> String {
        let mut text = String::new();
        play(&self.steps, |step, answer| {
            text += &shown(step);
            if let Some(answer) = answer {
                text += &told(&answer);
            }
        });
        text
    }
}

fn put_step(stream: &mut Stream, step: &Step, of: Of) {
    match step {
        Step::Sheet(sheet) => stream.sheet(*sheet),
        Step::Store(bytes) => stream.store(bytes),
        Step::Length(length) => stream.store_length(*length),
        Step::StoreByte(place, value) => stream.store_byte(*place, *value),
        Step::Name(name) => stream.name(name),
        Step::Image(image) => stream.image(image),
        Step::Keep => stream.keep_image(of),
        Step::Recall => stream.recall(of),
    }
}

fn chained(chain: &mut Chain, answer: &Answer) {
    chain.called(answer.number());
    match answer {
        Answer::Kept(_, store) => chain.bytes(store),
        Answer::Recalled(_, place, part) => {
            chain.number(*place as u64);
            chain.number(part.len() as u64);
            chain.bytes(part);
        }
    }
}

fn told(answer: &Answer) -> String {
    match answer {
        Answer::Kept(number, store) => format!("{number} {}\n", digest(store)),
        Answer::Recalled(number, place, part) => {
            format!("{number} {place} {} {}\n", part.len(), digest(part))
        }
    }
}

/// A step, for a person.
fn shown(step: &Step) -> String {
    let hex = |bytes: &[u8]| -> String { bytes.iter().map(|byte| format!("{byte:02X}")).collect() };
    match step {
        Step::Sheet(sheet) => format!("{sheet:?}\n"),
        Step::Store(bytes) => format!("store of {} bytes {}\n", bytes.len(), hex(bytes)),
        Step::Length(length) => format!("store of {length} bytes\n"),
        Step::StoreByte(place, value) => format!("byte {place} of the store is {value:02X}\n"),
        Step::Name(name) => format!("name {}\n", hex(name)),
        Step::Image(image) => format!("image of {} bytes {}\n", image.len(), hex(image)),
        Step::Keep => String::from("store: "),
        Step::Recall => String::from("recall: "),
    }
}

#[cfg(test)]
mod tests {
    use super::*;

    #[test]
    fn every_group_answers_as_it_has_to() {
        assert_eq!(faults(), Vec::<String>::new());
    }

    /// Every number of a drawn list but 71 comes often, and a refused call stands between others.
    #[test]
    fn drawn_lists_answer_every_number() {
        let mut answered = [0; 256];
        let (_, lists) = KINDS[1];
        for group in lists() {
            play(&group.steps, |_, answer| {
                let number = answer.map(|answer| answer.number());
                answered[usize::from(number.unwrap_or(255))] += 1;
            });
        }
        for (number, least) in [(0, 3_000), (51, 1_000), (52, 1_000), (53, 500), (71, 300)] {
            assert!(answered[number] > least, "{number}: {}", answered[number]);
        }
    }
}

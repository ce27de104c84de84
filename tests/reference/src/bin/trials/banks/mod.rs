//! Rounds of a bank of panels, request R-9: each number and order, grants, panels that stop or are refused in every place, and drawn banks.

mod kinds;
mod steps;

use std::collections::BTreeSet;

use reference::case::digest;
use reference::kinds::{all_of, counts_of, Count};
use reference::Sheet;

use crate::stream::{Chain, Of, Stream};
use crate::{Item, Items};
use kinds::KINDS;
use steps::{panel_numbers, play, Answer, Form, Group, Step};

pub fn all() -> Items {
    items(all_of(&KINDS))
}

/// Every fourth round that is told in a line, and the first of the drawn banks.
pub fn small() -> Items {
    let groups = all_of(&KINDS);
    let (lines, others): (Vec<Group>, Vec<Group>) =
        groups.into_iter().partition(|group| group.calls() == 1);
    let few = others.into_iter().take(12);
    items(lines.into_iter().step_by(4).chain(few).collect())
}

fn items(groups: Vec<Group>) -> Items {
    let item = |group| Box::new(group) as Box<dyn Item>;
    groups.into_iter().map(item).collect()
}

/// How many groups there are of each kind, how many rounds, and how many panels got a turn.
pub fn counts() -> Vec<Count> {
    let mut counts = counts_of("banks", &KINDS);
    let groups = all_of(&KINDS);
    let rounds = groups.iter().map(Group::calls).sum();
    let mut turns = 0;
    for group in &groups {
        play(&group.steps, |_, answer| {
            if let Some(answer) = answer.filter(|answer| answer.number == 0) {
                turns += panel_numbers(&answer).len();
            }
        });
    }
    counts.push((String::from("banks/rounds"), rounds));
    counts.push((String::from("banks/turns"), turns));
    counts
}

/// What is wrong with the groups: a number that isn't due, or one that no round or panel of either form has.
pub fn faults() -> Vec<String> {
    let groups = all_of(&KINDS);
    let mut faults: Vec<String> = groups.iter().filter_map(Group::fault).collect();
    for (form, due, panels_due) in [
        (
            Form::Bytes,
            &[0, 61, 62, 63, 71][..],
            &[0, 2, 3, 11, 12, 13, 14, 21, 22, 23, 32, 33, 34][..],
        ),
        (
            Form::Values,
            &[0, 61, 62, 71],
            &[0, 2, 3, 11, 12, 13, 14, 21, 22, 23, 34],
        ),
    ] {
        let (mut rounds, mut panels) = (BTreeSet::new(), BTreeSet::new());
        for group in &groups {
            play(&group.steps, |_, answer| {
                if let Some(answer) = answer.filter(|answer| answer.form == form) {
                    rounds.insert(answer.number);
                    if answer.number == 0 {
                        panels.extend(panel_numbers(&answer));
                    }
                }
            });
        }
        let of = |numbers: &[u8]| BTreeSet::from_iter(numbers.iter().copied());
        if rounds != of(due) || panels != of(panels_due) {
            faults.push(format!("{form:?}: rounds {rounds:?}, panels {panels:?}"));
        }
    }
    faults
}

impl Item for Group {
    fn name(&self) -> String {
        self.name.clone()
    }

    fn put(&self, stream: &mut Stream) -> String {
        let of = if self.calls() == 1 {
            Of::Line
        } else {
            Of::Group
        };
        let (mut chain, mut line) = (Chain::default(), String::new());
        stream.sheet(Sheet::UPD546);
        stream.bank(&[]);
        stream.rom(&[]);
        stream.schedule(&[]);
        play(&self.steps, |step, answer| {
            put_step(stream, step, of);
            if let Some(answer) = answer {
                chain.called(answer.number);
                chain.bytes(answer.bank);
                chain.bytes(answer.logs);
                line = told(&answer);
            }
        });
        if of == Of::Line {
            return line;
        }
        stream.tell_group();
        chain.line()
    }

    fn show(&self) -> String {
        let mut text = String::new();
        play(&self.steps, |step, answer| {
            text += &shown(step);
            if let Some(answer) = answer {
                text += &told(&answer);
                text += &format!("numbers of the panels {:?}\n", panel_numbers(&answer));
                text += &format!("bank {}\nlogs {}\n", hex(answer.bank), hex(answer.logs));
            }
        });
        text
    }
}

fn put_step(stream: &mut Stream, step: &Step, of: Of) {
    match step {
        Step::Sheet(sheet) => stream.sheet(*sheet),
        Step::Bank(bytes) => stream.bank(bytes),
        Step::Length(length) => stream.bank_length(*length),
        Step::BankByte(place, value) => stream.bank_byte(*place, *value),
        Step::Keep => stream.keep(),
        Step::BringBack => stream.bring_back(),
        Step::Roms(bytes) => stream.rom(bytes),
        Step::Schedules(bytes) => stream.schedule(bytes),
        Step::RomsLength(length) => stream.rom_length(*length),
        Step::SchedulesLength(length) => stream.schedule_length(*length),
        Step::Round(Form::Bytes, t, logs) => stream.round(of, *t, *logs),
        Step::Round(Form::Values, t, logs) => stream.round_of_values(of, *t, *logs),
    }
}

fn told(answer: &Answer) -> String {
    let (bank, logs) = (digest(answer.bank), digest(answer.logs));
    format!("{} {bank} {logs}\n", answer.number)
}

fn hex(bytes: &[u8]) -> String {
    bytes.iter().map(|byte| format!("{byte:02X}")).collect()
}

/// A step, for a person.
fn shown(step: &Step) -> String {
    match step {
        Step::Sheet(sheet) => format!("{sheet:?}\n"),
        Step::Bank(bytes) => format!("bank of {} bytes {}\n", bytes.len(), hex(bytes)),
        Step::Length(length) => format!("bank of {length} bytes\n"),
        Step::BankByte(place, value) => format!("byte {place} of the bank is {value:02X}\n"),
        Step::Keep => String::from("the bank is kept\n"),
        Step::BringBack => String::from("the kept bank is brought back\n"),
        Step::Roms(bytes) => format!("ROMs of {} bytes {}\n", bytes.len(), hex(bytes)),
        Step::Schedules(bytes) => format!("schedules of {} bytes {}\n", bytes.len(), hex(bytes)),
        Step::RomsLength(length) => format!("ROMs of {length} bytes\n"),
        Step::SchedulesLength(length) => format!("schedules of {length} bytes\n"),
        Step::Round(form, t, logs) => {
            format!("a round of {t} cycles, logs of {logs} bytes, {form:?}: ")
        }
    }
}

#[cfg(test)]
mod tests {
    use super::*;

    #[test]
    fn every_group_answers_as_it_has_to() {
        assert_eq!(faults(), Vec::<String>::new());
    }

    /// In drawn banks every number of a panel comes often, and panels stop and are refused in every place.
    #[test]
    fn drawn_banks_have_every_kind_of_panel() {
        let mut answered = [0; 256];
        let (mut stopped, mut refused) = ([0; 16], [0; 16]);
        let (_, banks) = KINDS[1];
        for group in banks() {
            play(&group.steps, |_, answer| {
                let Some(answer) = answer.filter(|answer| answer.number == 0) else {
                    return;
                };
                for (place, number) in panel_numbers(&answer).into_iter().enumerate() {
                    answered[usize::from(number)] += 1;
                    match number {
                        0 => {}
                        3 | 22 | 23 => stopped[place] += 1,
                        _ => refused[place] += 1,
                    }
                }
            });
        }
        for number in [0, 2, 3, 11, 13, 14, 21, 22, 23, 32, 33, 34] {
            assert!(answered[number] > 100, "{number}: {}", answered[number]);
        }
        assert!(stopped.iter().all(|&count| count > 50), "{stopped:?}");
        assert!(refused.iter().all(|&count| count > 50), "{refused:?}");
    }
}

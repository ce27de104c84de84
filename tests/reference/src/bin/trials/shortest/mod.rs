//! Shortest schedules that still stop, request R-12: each number and order, rows of ends that rise and fall, cycles around a stop, records
//! before the panel's cycle, logs, and drawn panels.

mod drawn;
mod group;
mod kinds;

use std::collections::BTreeSet;

use reference::kinds::{all_of, counts_of, Count, Kind};
use reference::shortest::CYCLE_LOG;
use reference::{save, Sheet, Version};

use crate::stream::{pattern, Chain, Of, Stream};
use crate::{Item, Items};
use group::{Call, Group};

const KINDS: [Kind<Group>; 8] = [
    ("numbers", kinds::numbers),
    ("rows", kinds::rows_of_ends),
    ("ends", kinds::ends),
    ("before", kinds::before),
    ("logs", kinds::logs),
    ("longest", kinds::longest),
    ("drawn", drawn::drawn),
    ("sheets", drawn::sheets),
];

pub fn all() -> Items {
    items(all_of(&KINDS))
}

/// Every third call that is told in a line, and the first of the others.
pub fn small() -> Items {
    let (lines, others): (Vec<Group>, Vec<Group>) =
        all_of(&KINDS).into_iter().partition(Group::is_line);
    let few = others.into_iter().take(12);
    items(lines.into_iter().step_by(3).chain(few).collect())
}

fn items(groups: Vec<Group>) -> Items {
    let item = |group| Box::new(group) as Box<dyn Item>;
    groups.into_iter().map(item).collect()
}

/// How many groups there are of each kind, and how many calls.
pub fn counts() -> Vec<Count> {
    let mut counts = counts_of("shortest", &KINDS);
    let calls = all_of(&KINDS).iter().map(|group| group.calls.len()).sum();
    counts.push((String::from("shortest/calls"), calls));
    counts
}

/// What is wrong with the groups: a number that isn't due, one that no call answers, or a log that is written where it has to stay.
pub fn faults() -> Vec<String> {
    let mut faults = Vec::new();
    let mut all = BTreeSet::new();
    for group in all_of(&KINDS) {
        let answers: Vec<Answer> = group.calls.iter().map(Answer::of).collect();
        let numbers = answers.iter().map(|answer| answer.number).collect();
        faults.extend(group.fault(&numbers));
        if answers.iter().any(|answer| answer.left != 1) {
            faults.push(format!("{}: bytes of the log that aren't free", group.name));
        }
        all.extend(numbers);
    }
    if all != BTreeSet::from([2, 11, 12, 13, 14, 21, 22, 23, 34, 71, 81, 82]) {
        faults.push(format!("the numbers {all:?}"));
    }
    faults
}

/// What a call answers: its number, k, and 1 where the log is as it was, but for the bytes that the trials are lent.
struct Answer {
    number: u8,
    k: u64,
    left: u64,
}

impl Answer {
    fn of(call: &Call) -> Answer {
        let before = pattern(call.log);
        let mut log = before.clone();
        let (number, k) = call.find(&mut log);
        let free = match number {
            22 | 23 | 82 => (CYCLE_LOG * call.n) as usize,
            _ => 0,
        };
        Answer {
            number,
            k: k as u64,
            left: u64::from(log[free..] == before[free..]),
        }
    }

    fn told(&self) -> String {
        format!("{} {} {}\n", self.number, self.k, self.left)
    }
}

impl Item for Group {
    fn name(&self) -> String {
        self.name.clone()
    }

    fn put(&self, stream: &mut Stream) -> String {
        let of = if self.is_line() { Of::Line } else { Of::Group };
        let (mut chain, mut line) = (Chain::default(), String::new());
        let mut last = None;
        for call in &self.calls {
            put_call(stream, last, call, of);
            last = Some(call);
            let answer = Answer::of(call);
            chain.called(answer.number);
            chain.number(answer.k);
            chain.number(answer.left);
            line = answer.told();
        }
        if of == Of::Line {
            return line;
        }
        stream.tell_group();
        chain.line()
    }

    fn show(&self) -> String {
        let shown = |call: &Call| call.shown() + &Answer::of(call).told();
        self.calls.iter().map(shown).collect()
    }
}

/// What isn't that of the call before, and the call.
fn put_call(stream: &mut Stream, last: Option<&Call>, call: &Call, of: Of) {
    stream.sheet(call.sheet);
    if last.is_none_or(|last| last.rom != call.rom) {
        stream.rom(&call.rom);
    }
    match last {
        Some(last) if last.schedule == call.schedule => {}
        Some(last) if last.schedule.starts_with(&call.schedule) => {
            stream.schedule_length(call.schedule.len());
        }
        _ => stream.schedule(&call.schedule),
    }
    if last.is_none_or(|last| last.state != call.state) {
        let mut image = vec![0; Version::Two.length()];
        let saved = save(Version::Two, &call.state, &mut image, Sheet::UPD546);
        assert_eq!(saved, 0, "a panel of the uPD546");
        stream.image(&image);
    }
    stream.find(of, call.n, call.log);
}

#[cfg(test)]
mod tests {
    use super::*;

    #[test]
    fn every_group_answers_as_it_has_to() {
        assert_eq!(faults(), Vec::<String>::new());
    }

    /// Of the drawn panels, many stop with either number, by none of their records, by some and by all; of many a larger k finishes or
    /// stops otherwise; and of many the records have RES among those that matter.
    #[test]
    fn drawn_panels_are_of_every_kind() {
        let (mut none, mut some, mut whole, mut again, mut reset) = (0, 0, 0, 0, 0);
        let mut stops = [0; 256];
        for call in drawn::drawn().iter().flat_map(|group| &group.calls) {
            let Answer { number, k, .. } = Answer::of(call);
            stops[usize::from(number)] += 1;
            if !matches!(number, 22 | 23) {
                continue;
            }
            let (k, records) = (k as usize, call.records());
            none += usize::from(k == 0);
            some += usize::from(0 < k && k < records);
            whole += usize::from(0 < k && k == records);
            again += usize::from((k..records).any(|k| call.trial(k) != number));
            let kept = &call.schedule[..10 * k];
            reset += usize::from(kept.chunks(10).any(|record| record[9] == 1));
        }
        for (number, least) in [(22, 300), (23, 500), (81, 100), (82, 300)] {
            assert!(stops[number] > least, "{number}: {}", stops[number]);
        }
        assert!(
            none > 200 && some > 500 && whole > 50,
            "{none} {some} {whole}"
        );
        assert!(again > 200 && reset > 100, "{again} {reset}");
    }
}

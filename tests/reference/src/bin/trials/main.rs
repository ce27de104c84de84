//! What crates test_calls, test_values, test_store, test_bank and test_shortest are tried on: makes their streams of commands,
//! and the text that they have to write. `stream.rs` tells both.
//!
//! PROGRAM is `calls`, `values`, `store`, `bank` or `shortest`. `trials PROGRAM FOLDER` writes the stored files of its crate, FOLDER/stdin
//! and FOLDER/stdout, of a few items. `trials PROGRAM whole FOLDER` writes FOLDER/stream and FOLDER/text, of
//! all. `trials PROGRAM list` names the items, one for each line of the whole text; `trials PROGRAM show K`
//! tells all of item K. `trials counts` says how many cases, groups, panels, stores, banks and shortest schedules
//! there are of each kind.

mod banks;
mod cases;
mod cuts;
mod images;
mod shortest;
mod steps;
mod stores;
mod stream;

use std::io::Write;
use std::path::Path;
use std::process::ExitCode;
use std::{env, fs, io};

use cuts::Kind;
use reference::kinds::text_of;
use reference::Runner;
use stream::Stream;

/// What one line of a text is of.
pub trait Item {
    fn name(&self) -> String;

    /// Adds its commands, and answers the line that is due.
    fn put(&self, stream: &mut Stream) -> String;

    /// All of it, for a person.
    fn show(&self) -> String;
}

type Items = Vec<Box<dyn Item>>;

const PROGRAMS: [&str; 5] = ["calls", "values", "store", "bank", "shortest"];

/// What the items are made of: all there is, or a few.
struct Trials {
    cases: Vec<reference::case::Case>,
    groups: Vec<images::Group>,
    panels: Vec<cuts::Panel>,
    kinds: Vec<Kind>,
    waits: Vec<steps::Waits>,
}

impl Trials {
    fn all() -> Trials {
        Trials {
            cases: cases::all(),
            groups: images::all(),
            panels: cuts::all(),
            kinds: vec![Kind::Cuts, Kind::Drawn],
            waits: steps::all(),
        }
    }

    fn small() -> Trials {
        Trials {
            cases: cases::small(),
            groups: images::small(),
            panels: cuts::small(),
            kinds: vec![Kind::Cuts],
            waits: Vec::new(),
        }
    }

    fn faults(&self) -> Vec<String> {
        let mut faults = cases::faults(&self.cases);
        faults.extend(images::all_faults(&self.groups));
        faults.extend(cuts::faults(&self.panels));
        faults.extend(steps::faults(&self.waits));
        faults
    }

    fn calls(self) -> Items {
        let mut items: Items = Vec::new();
        for (place, case) in self.cases.into_iter().enumerate() {
            if let Some(call) = cases::Call::of(place, case) {
                items.push(Box::new(call));
            }
        }
        for group in &self.groups {
            if let Some(calls) = images::Calls::of(group.clone()) {
                items.push(Box::new(calls));
            }
        }
        for group in self.groups {
            if let Some(converts) = images::Converts::of(group) {
                items.push(Box::new(converts));
            }
        }
        if self.kinds.contains(&Kind::Drawn) {
            items.push(Box::new(images::Lengths));
            items.push(Box::new(images::Versions));
        }
        for panel in self.panels {
            for runner in [Runner::Plain, Runner::Skipping] {
                items.push(Box::new(cuts::Unbroken(panel.clone(), runner)));
            }
            for &kind in &self.kinds {
                items.push(Box::new(cuts::Calls(panel.clone(), kind)));
            }
        }
        for waits in self.waits {
            items.push(Box::new(waits));
        }
        items
    }

    fn values(self) -> Items {
        let mut items: Items = Vec::new();
        for case in self.cases {
            items.push(Box::new(cases::Run(case)));
        }
        for runner in [Runner::Plain, Runner::Skipping] {
            items.push(Box::new(cases::Places(runner)));
        }
        for group in self.groups {
            items.push(Box::new(images::Values(group)));
        }
        for panel in self.panels {
            for &kind in &self.kinds {
                items.push(Box::new(cuts::Runs(panel.clone(), kind)));
            }
        }
        items
    }

    fn of(self, program: &str) -> Items {
        match program {
            "calls" => self.calls(),
            _ => self.values(),
        }
    }
}

/// All items of a program, and what is wrong with them.
fn all(program: &str) -> (Items, Vec<String>) {
    match program {
        "store" => return (stores::all(), stores::faults()),
        "bank" => return (banks::all(), banks::faults()),
        "shortest" => return (shortest::all(), shortest::faults()),
        _ => {}
    }
    let trials = Trials::all();
    let faults = trials.faults();
    (trials.of(program), faults)
}

fn small(program: &str) -> Items {
    match program {
        "store" => stores::small(),
        "bank" => banks::small(),
        "shortest" => shortest::small(),
        _ => Trials::small().of(program),
    }
}

/// The whole stream, and its text.
fn made(items: &Items) -> (Vec<u8>, String) {
    let mut stream = Stream::default();
    let text = items.iter().map(|item| item.put(&mut stream)).collect();
    stream.end();
    (stream.bytes, text)
}

fn write(folder: &str, names: [&str; 2], items: &Items) -> io::Result<()> {
    let (stream, text) = made(items);
    fs::write(Path::new(folder).join(names[0]), stream)?;
    fs::write(Path::new(folder).join(names[1]), text)
}

fn told(items: &Items, word: &str) -> Result<String, String> {
    match word.parse::<usize>() {
        Ok(place) if place < items.len() => {
            let item = &items[place];
            let line = item.put(&mut Stream::default());
            Ok(format!("{place} {}\n{line}\n{}", item.name(), item.show()))
        }
        _ => Err(format!("there is no {word}; `list` names those there are")),
    }
}

fn done(words: &[String]) -> Result<String, String> {
    let words: Vec<&str> = words.iter().map(String::as_str).collect();
    let failed = |error: io::Error| error.to_string();
    match words.as_slice() {
        ["counts"] => Ok(text_of(
            &[
                cases::counts(),
                images::counts(),
                cuts::counts(),
                steps::counts(),
                stores::counts(),
                banks::counts(),
                shortest::counts(),
            ]
            .concat(),
        )),
        [program, "list"] if PROGRAMS.contains(program) => {
            let (items, _) = all(program);
            let names = items.iter().map(|item| item.name()).enumerate();
            Ok(names
                .map(|(place, name)| format!("{place} {name}\n"))
                .collect())
        }
        [program, "show", place] if PROGRAMS.contains(program) => told(&all(program).0, place),
        [program, "whole", folder] if PROGRAMS.contains(program) => {
            let (items, faults) = all(program);
            if !faults.is_empty() {
                return Err(faults.join("\n"));
            }
            write(folder, ["stream", "text"], &items).map_err(failed)?;
            Ok(String::new())
        }
        [program, folder] if PROGRAMS.contains(program) => {
            let items = small(program);
            write(folder, ["stdin", "stdout"], &items).map_err(failed)?;
            Ok(String::new())
        }
        _ => Err(String::from(
            "counts is wanted, or calls, values, store, bank or shortest and FOLDER, whole FOLDER, list or show K",
        )),
    }
}

fn main() -> ExitCode {
    let words: Vec<String> = env::args().skip(1).collect();
    match done(&words) {
        Ok(text) => {
            // A reader may close its end early.
            let _ = io::stdout().write_all(text.as_bytes());
            ExitCode::SUCCESS
        }
        Err(error) => {
            eprintln!("trials: {error}");
            ExitCode::FAILURE
        }
    }
}

//! The logs whose waiting times are read: makes the file of crate test_waits and its text, and the
//! inputs of program `waits`.
//!
//! `waits FOLDER` writes FOLDER/stdin and FOLDER/stdout. `waits files FOLDER` writes two files for each
//! input K, `K NAME.input` and `K NAME.text`: what the built program is given, and has to print. `waits
//! list` names the cases and, behind them, the inputs, `waits counts` says how many there are of each kind.
//! `waits show K` tells case or input K: what is
//! carried, the log and the answer. `waits report` reads a log from standard input and prints its
//! report.
//!
//! # The file
//!
//! Two bytes say how many cases there are; the cases follow, one after the other. Numbers are
//! big-endian. A log has at most 4,000 bytes.
//!
//! | bytes | what |
//! |---|---|
//! | 1 | from: 0 an empty report, 1 what the case before answered, 2 what is given here |
//! | 2 | length of the log |
//! | 141 | where from is 2: what is carried |
//! | | the log |
//!
//! An empty report is all zeros, and so is what a refused case answered. What is carried: for landings 0
//! to 3 closed (8), cycles (8), longest (8), open (1) and start (8), then lamps (1) and last cycle (8).
//!
//! # The text
//!
//! A line of titles, a line for each case, and a line with how many there were. A case's line has its
//! number, 0 if it was accepted, lamps, last cycle, and for each landing closed, cycles, longest, open
//! and start.

mod carried;
mod case;
mod drawn;
mod faults;
mod inputs;
mod machine;
mod records;
mod resets;
mod splits;
#[cfg(test)]
mod tests;
mod told;

use std::env;
use std::io::{self, Read};
use std::process::ExitCode;

use case::{answers, Case};
use inputs::Input;
use reference::kinds::{all_of, counts_of, Count, Kind};
use reference::maker::{make, File, Made};
use reference::waiting::{read_on, report_text, Answer, Carried, LANDINGS};

/// The longest files that are stored.
const STDIN: usize = 450_000;
const STDOUT: usize = 350_000;

const KINDS: [Kind<Case>; 6] = [
    ("records", records::cases),
    ("splits", splits::cases),
    ("carried", carried::cases),
    ("machine", machine::cases),
    ("drawn", drawn::cases),
    ("resets", resets::cases),
];

fn all_cases() -> Vec<Case> {
    all_of(&KINDS)
}

fn counts() -> Vec<Count> {
    let mut counts = counts_of("logs", &KINDS);
    counts.extend(counts_of("waits_inputs", &inputs::KINDS));
    counts
}

fn titles() -> String {
    let landing = " closed cycles longest open start";
    format!("number lamps last{}\n", landing.repeat(LANDINGS))
}

fn line(answer: &Answer) -> String {
    let Carried {
        landings,
        lamps,
        last,
    } = answer.carried;
    let mut line = format!("{} {lamps} {last}", answer.number);
    for landing in landings {
        line.push_str(&format!(
            " {} {} {} {} {}",
            landing.closed, landing.cycles, landing.longest, landing.open, landing.start
        ));
    }
    line.push('\n');
    line
}

fn file_of(cases: &[Case]) -> Vec<u8> {
    let count = u16::try_from(cases.len()).expect("the count has two bytes");
    let mut file = count.to_be_bytes().to_vec();
    for case in cases {
        file.extend(case.bytes());
    }
    file
}

fn text_of(answers: &[(Carried, Answer)]) -> String {
    let mut text = titles();
    for (_, answer) in answers {
        text.push_str(&line(answer));
    }
    text.push_str(&format!("{} cases\n", answers.len()));
    text
}

fn made(cases: &[Case], inputs: &[Input]) -> Made {
    let stdin = file_of(cases);
    let answers = answers(cases);
    let stdout = text_of(&answers);
    let mut faults = faults::all(cases, &answers);
    faults.extend(inputs::faults(inputs));
    for (what, size, most) in [
        ("stdin", stdin.len(), STDIN),
        ("stdout", stdout.len(), STDOUT),
    ] {
        if size > most {
            faults.push(format!("{what} has {size} bytes"));
        }
    }
    println!("{} cases, {} bytes", cases.len(), stdin.len());
    let files = inputs.iter().map(|input| File {
        input: input.log.clone(),
        text: input.text().into_bytes(),
        said: Vec::new(),
    });
    Made {
        stdin,
        stdout,
        faults,
        files: files.collect(),
    }
}

/// The line of the last of these cases, and all of it.
fn show(cases: &[Case]) -> String {
    let answers = answers(cases);
    let (carried, answer) = &answers[cases.len() - 1];
    let told = told::all(carried, &cases[cases.len() - 1].log);
    format!("{}{}\n{told}", titles(), line(answer))
}

fn show_input(input: &Input) -> String {
    let told = told::all(&Carried::default(), &input.log);
    format!("{}\n{told}", input.text())
}

/// The report of the log of standard input.
fn report() -> io::Result<()> {
    let mut log = Vec::new();
    io::stdin().read_to_end(&mut log)?;
    print!("{}", report_text(&read_on(&Carried::default(), &log)));
    Ok(())
}

fn main() -> ExitCode {
    if env::args().skip(1).eq(["report"]) {
        return match report() {
            Ok(()) => ExitCode::SUCCESS,
            Err(error) => {
                eprintln!("waits: {error}");
                ExitCode::FAILURE
            }
        };
    }
    let cases = all_cases();
    let inputs = inputs::all();
    let names = cases
        .iter()
        .map(|case| case.name.clone())
        .chain(inputs.iter().map(|input| input.name.clone()))
        .collect();
    let show = |place: usize| match cases.get(place) {
        Some(_) => show(&cases[..=place]),
        None => show_input(&inputs[place - cases.len()]),
    };
    make("waits", names, counts, show, || made(&cases, &inputs))
}

//! The inputs of program `walk` that are tried, and their texts.
//!
//! `walks walk` reads an input from standard input and writes what the program has to write: FROM and TO in 8 bytes
//! each, big-endian, and a panel as program `trace` reads it. `walks files FOLDER` writes two files for each input K,
//! `K NAME.input` and `K NAME.text`: what the built program is given, and has to print. `walks list` names the inputs,
//! `walks counts` says how many there are of each kind. `walks show K` tells the text of input K.

mod inputs;

use std::env;
use std::io::{self, Read, Write};
use std::process::ExitCode;

use inputs::Input;
use reference::kinds::{all_of, counts_of};
use reference::maker::{make, File, Made};
use reference::walk;

/// What the texts have to hold together, so that each kind of line is tried.
const HELD: [&str; 16] = [
    " owed    ",
    " skipped ",
    " accepts ",
    " reset   ",
    " LDI  ",
    " EI   ",
    " STM  ",
    " LI   ",
    "   TM",
    " 4032",
    " out I=",
    " line A=",
    " line INT=",
    " line RES=",
    "stop 22 ",
    "stop 23 ",
];

/// Each input has to end as it says, and each kind of line and each refusal has to be there.
fn faults(inputs: &[Input], texts: &[String]) -> Vec<String> {
    let mut faults = Vec::new();
    for (input, text) in inputs.iter().zip(texts) {
        let last = text.lines().last().unwrap_or_default();
        if !last.starts_with(&input.last) {
            faults.push(format!("{}: {last}", input.name));
        }
    }
    let refusals = [11, 12, 13, 14, 21].map(|number| format!("refused {number}\n"));
    let held = HELD.into_iter().chain(refusals.iter().map(String::as_str));
    for words in held {
        if !texts.iter().any(|text| text.contains(words)) {
            faults.push(format!("no text has '{words}'"));
        }
    }
    faults
}

fn made(inputs: &[Input]) -> Made {
    let texts: Vec<String> = inputs.iter().map(|input| walk(&input.bytes)).collect();
    let files = inputs.iter().zip(&texts).map(|(input, text)| File {
        input: input.bytes.clone(),
        text: text.clone().into_bytes(),
        said: Vec::new(),
    });
    Made {
        stdin: Vec::new(),
        stdout: String::new(),
        faults: faults(inputs, &texts),
        files: files.collect(),
    }
}

/// What the program writes of standard input.
fn write_answer() -> io::Result<()> {
    let mut input = Vec::new();
    io::stdin().read_to_end(&mut input)?;
    io::stdout().write_all(walk(&input).as_bytes())
}

fn main() -> ExitCode {
    if env::args().skip(1).eq(["walk"]) {
        return match write_answer() {
            Ok(()) => ExitCode::SUCCESS,
            Err(error) => {
                eprintln!("walks: {error}");
                ExitCode::FAILURE
            }
        };
    }
    let inputs = all_of(&inputs::KINDS);
    let names = inputs.iter().map(|input| input.name.clone()).collect();
    let show = |place: usize| walk(&inputs[place].bytes);
    let counts = || counts_of("walk_inputs", &inputs::KINDS);
    make("walks", names, counts, show, || made(&inputs))
}

#[cfg(test)]
mod tests {
    use super::*;

    #[test]
    fn every_input_ends_as_it_says_and_every_kind_of_line_is_there() {
        assert_eq!(made(&all_of(&inputs::KINDS)).faults, Vec::<String>::new());
    }

    #[test]
    fn a_kind_of_line_that_is_wanting_is_a_fault() {
        assert_eq!(faults(&[], &[]).len(), HELD.len() + 5);
    }
}

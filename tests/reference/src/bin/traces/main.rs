//! The inputs of program `trace` that are tried, and their texts.
//!
//! `traces files FOLDER` writes two files for each input K, `K NAME.input` and `K NAME.text`: what the
//! built program is given, and has to print. `traces list` names the inputs, `traces counts` says how many
//! there are of each kind. `traces show K` tells all of the run of input K.

mod inputs;

use std::process::ExitCode;

use inputs::Input;
use reference::kinds::{all_of, counts_of};
use reference::lent::Lent;
use reference::maker::{make, File, Made};
use reference::trace;

/// Each input has to end as it says, and each number that can end a trace has to be there.
fn faults(inputs: &[Input], texts: &[String]) -> Vec<String> {
    let mut faults = Vec::new();
    for (input, text) in inputs.iter().zip(texts) {
        let last = text.lines().last().unwrap_or_default();
        if last != input.last {
            faults.push(format!("{}: {last}", input.name));
        }
    }
    for number in ["0", "3", "11", "12", "13", "14", "21", "22", "23"] {
        let ends = |input: &Input| input.last.split(' ').last() == Some(number);
        if !inputs.iter().any(ends) {
            faults.push(format!("no input ends with {number}"));
        }
    }
    faults
}

fn made(inputs: &[Input]) -> Made {
    let texts: Vec<String> = inputs.iter().map(|input| trace(&input.bytes)).collect();
    let files = inputs.iter().zip(&texts).map(|(input, text)| File {
        input: input.bytes.clone(),
        text: text.clone().into_bytes(),
        said: Vec::new(),
    });
    Made {
        stdin: Vec::new(),
        stdout: String::new(),
        faults: faults(inputs, &texts),
        files: files.collect(),
    }
}

fn show(input: &Input) -> String {
    match Lent::of_panel(&input.bytes) {
        Some(lent) => lent.told(),
        None => format!("{} bytes: {}", input.bytes.len(), trace(&input.bytes)),
    }
}

fn main() -> ExitCode {
    let inputs = all_of(&inputs::KINDS);
    let names = inputs.iter().map(|input| input.name.clone()).collect();
    let show = |place: usize| show(&inputs[place]);
    let counts = || counts_of("trace_inputs", &inputs::KINDS);
    make("traces", names, counts, show, || made(&inputs))
}

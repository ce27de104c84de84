//! Program `ports`: the bytes of a panel's port log, and the inputs on which it is tried.
//!
//! `ports` alone reads a panel from standard input, as program `trace` does, and writes the bytes of the
//! log of all its cycles, or up to a stop, from the fresh state; the log has room for every record. Of
//! a refused panel it writes `refused` and the number, and a line end.
//!
//! `ports files FOLDER` writes two files for each input K, `K NAME.input` and `K NAME.text`: what the
//! built program is given, and has to write. `ports list` names the inputs, `ports counts` says how many
//! there are of each kind. `ports show K` tells all of the run of input K.

mod inputs;

use std::env;
use std::io::{self, Read, Write};
use std::process::ExitCode;

use inputs::{End, Input};
use reference::kinds::counts_of;
use reference::lent::Lent;
use reference::log::RECORD;
use reference::maker::{make, File, Made};
use reference::numbers::ROM_LENGTH;
use reference::ports;

/// Those that a panel of program `ports` can end with: all of a run but 3, 34 and 2.
const NUMBERS: [u8; 8] = [0, 11, 12, 13, 14, 21, 22, 23];

/// How the run of an input ends.
fn end_of(input: &Input) -> End {
    let Some(lent) = Lent::of_panel(&input.bytes) else {
        return End::Refused(ROM_LENGTH);
    };
    let (answer, _) = lent.with_room().run();
    if answer.refused {
        End::Refused(answer.number)
    } else {
        End::Records(answer.written / RECORD, answer.number)
    }
}

/// Each input has to end as it says, and each number has to be there.
fn faults(inputs: &[Input]) -> Vec<String> {
    let mut faults = Vec::new();
    for input in inputs {
        let end = end_of(input);
        if !input.end.fits(end) {
            faults.push(format!("{}: {end:?}", input.name));
        }
    }
    for number in NUMBERS {
        if !inputs.iter().any(|input| input.end.number() == number) {
            faults.push(format!("no input ends with {number}"));
        }
    }
    faults
}

fn made(inputs: &[Input]) -> Made {
    let files = inputs.iter().map(|input| File {
        input: input.bytes.clone(),
        text: ports(&input.bytes),
        said: Vec::new(),
    });
    Made {
        stdin: Vec::new(),
        stdout: String::new(),
        faults: faults(inputs),
        files: files.collect(),
    }
}

fn show(input: &Input) -> String {
    match Lent::of_panel(&input.bytes) {
        Some(lent) => lent.with_room().told(),
        None => format!("{} bytes: refused {ROM_LENGTH}\n", input.bytes.len()),
    }
}

/// The log of the panel of standard input.
fn write_log() -> io::Result<()> {
    let mut panel = Vec::new();
    io::stdin().read_to_end(&mut panel)?;
    io::stdout().write_all(&ports(&panel))
}

fn main() -> ExitCode {
    if env::args().len() == 1 {
        return match write_log() {
            Ok(()) => ExitCode::SUCCESS,
            Err(error) => {
                eprintln!("ports: {error}");
                ExitCode::FAILURE
            }
        };
    }
    let inputs = inputs::all();
    let names = inputs.iter().map(|input| input.name.clone()).collect();
    let show = |place: usize| show(&inputs[place]);
    let counts = || counts_of("ports_inputs", &inputs::KINDS);
    make("ports", names, counts, show, || made(&inputs))
}

#[cfg(test)]
mod tests {
    use super::*;

    #[test]
    fn every_input_ends_as_it_says() {
        assert_eq!(faults(&inputs::all()), Vec::<String>::new());
    }

    #[test]
    fn a_number_that_is_wanting_is_a_fault() {
        let mut inputs = inputs::all();
        inputs.retain(|input| input.end.number() != 22);
        assert_eq!(faults(&inputs), ["no input ends with 22"]);
        inputs[0].end = End::Refused(22);
        assert_eq!(faults(&inputs).len(), 1);
    }

    #[test]
    fn the_log_of_the_documents_example() {
        let panel = inputs::example(10, &[]);
        let log = [
            [0, 0, 0, 0, 0, 0, 2, 5],
            [0, 0, 0, 0, 0, 0, 3, 10],
            [0, 0, 0, 0, 0, 3, 4, 3],
        ];
        assert_eq!(ports(&panel), log.concat());
        assert_eq!(ports(&panel[..2_003]), b"refused 21\n");
        assert_eq!(ports(&inputs::example(10, &[0; 9])), b"refused 11\n");
        assert_eq!(ports(&inputs::example(0, &[])), b"");
    }
}

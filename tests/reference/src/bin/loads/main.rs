//! Loads from a seed: makes the file of crate test_loads and its text, and the inputs of program `load`.
//!
//! `loads FOLDER` writes FOLDER/stdin and FOLDER/stdout. `loads files FOLDER` writes three files for each
//! input K, `K NAME.input`, `K NAME.text` and `K NAME.said`: what the built program is given, and has to
//! write and to say on standard error. `loads list` names the cases and, behind them, the inputs, `loads
//! counts` says how many there are of each kind. `loads show K` tells case or input K. `loads load` reads a line from standard input and writes its load.
//!
//! # The file
//!
//! Two bytes say how many cases there are; the cases follow, one after the other, 17 bytes each. Numbers
//! are big-endian.
//!
//! | bytes | what |
//! |---|---|
//! | 1 | 0 a ROM, 1 a schedule |
//! | 4 | the seed |
//! | 8 | m, the records of a schedule |
//! | 4 | length of the buffer, at most 65,536 |
//!
//! Before the call byte i of the buffer is 7i + 13 modulo 256.
//!
//! # The text
//!
//! A line of titles, a line for each case, and a line with how many there were. A case's line has its
//! number, the digest of the whole buffer after the call (`bin/cases/main.rs` tells it), and the buffer's
//! first ten bytes, 0 where it has none.

mod cases;
mod inputs;

use std::env;
use std::io::{self, Read, Write};
use std::process::ExitCode;

use cases::Case;
use inputs::Input;
use reference::kinds::{all_of, counts_of, Count};
use reference::maker::{make, File, Made};

fn titles() -> String {
    format!(
        "number digest{}\n",
        (0..10).map(|k| format!(" {k}")).collect::<String>()
    )
}

fn made(cases: &[Case], inputs: &[Input]) -> Made {
    let count = u16::try_from(cases.len()).expect("the count has two bytes");
    let mut stdin = count.to_be_bytes().to_vec();
    let mut stdout = titles();
    for case in cases {
        stdin.extend(case.bytes());
        stdout.push_str(&case.line());
    }
    stdout.push_str(&format!("{count} cases\n"));
    println!("{count} cases, {} bytes", stdin.len());
    let mut faults = cases::faults(cases);
    faults.extend(inputs::faults(inputs));
    let files = inputs.iter().map(|input| File {
        input: input.line.clone(),
        text: input.text(),
        said: input.said(),
    });
    Made {
        stdin,
        stdout,
        faults,
        files: files.collect(),
    }
}

/// What program `load` writes of the line of standard input.
fn write_load() -> io::Result<()> {
    let mut line = Vec::new();
    io::stdin().read_to_end(&mut line)?;
    io::stdout().write_all(&inputs::text_of(&line))
}

fn counts() -> Vec<Count> {
    let mut counts = counts_of("loads", &cases::KINDS);
    counts.push(cases::seed_count());
    counts.extend(counts_of("load_inputs", &inputs::KINDS));
    counts
}

fn main() -> ExitCode {
    if env::args().skip(1).eq(["load"]) {
        return match write_load() {
            Ok(()) => ExitCode::SUCCESS,
            Err(error) => {
                eprintln!("loads: {error}");
                ExitCode::FAILURE
            }
        };
    }
    let cases = all_of(&cases::KINDS);
    let inputs = all_of(&inputs::KINDS);
    let names = cases
        .iter()
        .map(|case| case.name.clone())
        .chain(inputs.iter().map(|input| input.name.clone()))
        .collect();
    let show = |place: usize| match cases.get(place) {
        Some(case) => format!("{}{}", titles(), case.line()),
        None => inputs[place - cases.len()].told(),
    };
    make("loads", names, counts, show, || made(&cases, &inputs))
}

//! Programs `storing`, `recalling`, `forward` and `shortening`, which the front door runs on parts of files: what they write of an
//! input, and the inputs on which they are tried.
//!
//! `states PROGRAM` reads an input from standard input and writes what the program has to write. `states PROGRAM files
//! FOLDER` writes three files for each input K, `K NAME.input`, `K NAME.text` and `K NAME.said`: what the built program
//! is given, and has to write and to say on standard error. `states PROGRAM list` names the inputs, `states PROGRAM show
//! K` tells input K, `states counts` says how many there are of each kind, of all four.
//!
//! # The inputs
//!
//! | program | bytes | what |
//! |---|---|---|
//! | `storing`, `recalling` | 8 | the name |
//! | | 4 | the length of the store, at most 63,000 |
//! | | | the store |
//! | `storing` | all others | the image |
//! | `forward` | 1 | 0 the fresh state, else an image |
//! | | 8 | n |
//! | | 4 | the length of the image |
//! | | | the image |
//! | | all others | the panel, whose own n isn't looked at |
//! | `shortening` | 1 | 0 a text, else the shortened panel is wanted |
//! | | all others | the panel |

mod answers;
mod inputs;

use std::env;
use std::io::{self, Read, Write};
use std::process::ExitCode;

use answers::Answer;
use inputs::Input;
use reference::kinds::{all_of, counts_of, text_of, Kind};
use reference::maker::{make_by, File, Made};

/// A program: its name, what it answers, its inputs by kind, and the numbers that it can refuse with.
struct Program {
    name: &'static str,
    answer: fn(&[u8]) -> Answer,
    kinds: &'static [Kind<Input>],
    numbers: &'static [u8],
}

const PROGRAMS: [Program; 4] = [
    Program {
        name: "storing",
        answer: answers::storing,
        kinds: &inputs::STORING,
        numbers: &[51, 53],
    },
    Program {
        name: "recalling",
        answer: answers::recalling,
        kinds: &inputs::RECALLING,
        numbers: &[51, 52],
    },
    Program {
        name: "forward",
        answer: answers::forward,
        kinds: &inputs::FORWARD,
        numbers: &[2, 11, 12, 13, 14, 21, 31, 32, 33, 34],
    },
    Program {
        name: "shortening",
        answer: answers::shortening,
        kinds: &inputs::SHORTENING,
        numbers: &[11, 12, 13, 14, 21, 81, 82],
    },
];

/// Each input has to end as it says, and each number has to be there.
fn faults(program: &Program, inputs: &[Input]) -> Vec<String> {
    let mut faults = Vec::new();
    for input in inputs {
        let end = (program.answer)(&input.bytes).end;
        if end != input.end {
            faults.push(format!("{}: {end:?}", input.name));
        }
    }
    for &number in program.numbers {
        if !inputs
            .iter()
            .any(|input| input.end == answers::End::Refused(number))
        {
            faults.push(format!("no input ends with {number}"));
        }
    }
    faults
}

fn made(program: &Program, inputs: &[Input]) -> Made {
    let files = inputs.iter().map(|input| {
        let answer = (program.answer)(&input.bytes);
        File {
            input: input.bytes.clone(),
            text: answer.text,
            said: answer.said,
        }
    });
    Made {
        stdin: Vec::new(),
        stdout: String::new(),
        faults: faults(program, inputs),
        files: files.collect(),
    }
}

fn told(program: &Program, input: &Input) -> String {
    let answer = (program.answer)(&input.bytes);
    let hex = |bytes: &[u8]| {
        bytes
            .iter()
            .map(|byte| format!("{byte:02x}"))
            .collect::<String>()
    };
    format!(
        "{:?}\ninput {}\noutput {}\n",
        answer.end,
        hex(&input.bytes),
        hex(&answer.text)
    )
}

/// What a program writes of standard input.
fn write_answer(program: &Program) -> io::Result<()> {
    let mut input = Vec::new();
    io::stdin().read_to_end(&mut input)?;
    let answer = (program.answer)(&input);
    io::stderr().write_all(&answer.said)?;
    io::stdout().write_all(&answer.text)
}

fn run(program: &Program, words: Vec<String>) -> ExitCode {
    if words.is_empty() {
        return match write_answer(program) {
            Ok(()) => ExitCode::SUCCESS,
            Err(error) => {
                eprintln!("states: {error}");
                ExitCode::FAILURE
            }
        };
    }
    let inputs = all_of(program.kinds);
    let names = inputs.iter().map(|input| input.name.clone()).collect();
    let counts = || counts_of(&format!("{}_inputs", program.name), program.kinds);
    let show = |place: usize| told(program, &inputs[place]);
    make_by(words, "states", names, counts, show, || {
        made(program, &inputs)
    })
}

fn main() -> ExitCode {
    let words: Vec<String> = env::args().skip(1).collect();
    if words == ["counts"] {
        for program in &PROGRAMS {
            print!(
                "{}",
                text_of(&counts_of(
                    &format!("{}_inputs", program.name),
                    program.kinds
                ))
            );
        }
        return ExitCode::SUCCESS;
    }
    let named = |program: &&Program| words.first().is_some_and(|word| word == program.name);
    match PROGRAMS.iter().find(named) {
        Some(program) => run(program, words[1..].to_vec()),
        None => {
            eprintln!("states: counts, or storing, recalling, forward or shortening is wanted");
            ExitCode::FAILURE
        }
    }
}

#[cfg(test)]
mod tests {
    use super::*;

    #[test]
    fn every_input_ends_as_it_says() {
        for program in &PROGRAMS {
            assert_eq!(
                faults(program, &all_of(program.kinds)),
                Vec::<String>::new()
            );
        }
    }

    #[test]
    fn a_number_that_is_wanting_is_a_fault() {
        let mut inputs = all_of(PROGRAMS[0].kinds);
        inputs.retain(|input| input.end != answers::End::Refused(53));
        assert_eq!(faults(&PROGRAMS[0], &inputs), ["no input ends with 53"]);
    }

    /// Two entries of room, a name and the image of the full lobby; then it is recalled.
    #[test]
    fn what_is_stored_is_recalled() {
        let image = reference::maker::sample("full.image");
        let stored = answers::storing(&inputs::parts(b"full    ", &[0; 180], &image)).text;
        assert_eq!(stored, [b"full    ", &image[..], &[0; 90]].concat());
        assert_eq!(
            answers::recalling(&inputs::parts(b"full    ", &stored, &[])).text,
            image
        );
    }

    /// The rush hour in two runs is the one of its panel.
    #[test]
    fn the_logs_of_two_runs_are_one() {
        let panel = reference::maker::sample("rush.panel");
        let (first, image) = split(answers::forward(&inputs::fresh(300, &panel)).text);
        assert_eq!(image, reference::maker::sample("full.image"));
        let (second, _) = split(answers::forward(&inputs::image(600, &image, &panel)).text);
        assert_eq!([first, second].concat(), reference::ports(&panel));
    }

    /// A shortened panel stops as the text says, and is its own shortest.
    #[test]
    fn a_shortened_panel_is_its_own() {
        let halt = reference::maker::sample("halt.panel");
        let short = answers::shortening(&inputs::wanted(&halt, 1)).text;
        assert_eq!(short, halt[..2_074]);
        assert_eq!(answers::shortening(&inputs::wanted(&short, 1)).text, short);
        let text = |panel: &[u8]| answers::shortening(&inputs::wanted(panel, 0)).text;
        let [long, short] =
            [text(&halt), text(&short)].map(|text| String::from_utf8(text).expect("a text"));
        assert_eq!(long.replace("records 7 of 87", "records 7 of 7"), short);
        assert!(long.starts_with("stop 23 cycle 4449 address 044\nrecords 7 of 87\nrecord cycle A B C D INT RES\n1 100 1 0 0 0 1 0\n"));
        assert!(long.ends_with("\n7 400 0 8 0 0 1 0\n"));
    }

    /// The last eight of the records are shown.
    #[test]
    fn eight_records_are_shown() {
        for (records, shown) in [(1, 1), (8, 8), (9, 8), (100, 8)] {
            let inputs = all_of(&inputs::SHORTENING);
            let name = format!("all of {records} records");
            let input = inputs
                .iter()
                .find(|input| input.name == name)
                .expect("there is one");
            let text = String::from_utf8(answers::shortening(&input.bytes).text).expect("a text");
            assert_eq!(text.lines().count(), 3 + shown);
            let last = text.lines().last().expect("a record");
            assert!(last.starts_with(&format!("{records} ")), "{last}");
        }
    }

    fn split(mut text: Vec<u8>) -> (Vec<u8>, Vec<u8>) {
        assert_eq!(text.pop(), Some(0));
        let image = text.split_off(text.len() - 82);
        (text, image)
    }
}

//! What the programs that make the files of a crate share: their words, and how they write.

use std::io::Write;
use std::path::Path;
use std::process::ExitCode;
use std::{env, fs, io};

use crate::kinds::{text_of, Count};

/// What a program makes: standard input and output of its crate, empty where it has none; what is wrong
/// with them; and the inputs of a program as it was built, one for each of the last names, or none.
pub struct Made {
    pub stdin: Vec<u8>,
    pub stdout: String,
    pub faults: Vec<String>,
    pub files: Vec<File>,
}

/// An input, and the bytes that have to be written of it and said on standard error.
pub struct File {
    pub input: Vec<u8>,
    pub text: Vec<u8>,
    pub said: Vec<u8>,
}

/// `PROGRAM FOLDER` writes FOLDER/stdin and FOLDER/stdout and fails where there is a fault;
/// `PROGRAM files FOLDER` writes the input and the text of each place K to `FOLDER/K NAME.input` and
/// `FOLDER/K NAME.text`, what is said of it, if anything, to `FOLDER/K NAME.said`, and fails likewise;
/// `PROGRAM list` prints the names; `PROGRAM counts` how many there are of each kind; `PROGRAM show K` tells
/// all of what has the place K among them.
pub fn make(
    program: &str,
    names: Vec<String>,
    counts: impl FnOnce() -> Vec<Count>,
    show: impl Fn(usize) -> String,
    made: impl FnOnce() -> Made,
) -> ExitCode {
    make_by(
        env::args().skip(1).collect(),
        program,
        names,
        counts,
        show,
        made,
    )
}

/// The same by these words.
pub fn make_by(
    words: Vec<String>,
    program: &str,
    names: Vec<String>,
    counts: impl FnOnce() -> Vec<Count>,
    show: impl Fn(usize) -> String,
    made: impl FnOnce() -> Made,
) -> ExitCode {
    let done = match words.as_slice() {
        [word] if word == "list" => {
            let lines = names.iter().enumerate();
            print(lines.map(|(k, name)| format!("{k} {name}\n")).collect());
            Ok(true)
        }
        [word] if word == "counts" => {
            print(text_of(&counts()));
            Ok(true)
        }
        [word, place] if word == "show" => place_of(place, names.len()).map(|place| {
            print(format!("{place} {}\n\n{}", names[place], show(place)));
            true
        }),
        [word, folder] if word == "files" => {
            write_files(folder, &names, &made()).map_err(|error| format!("{folder}: {error}"))
        }
        [folder] if folder != "show" && folder != "files" => {
            write(folder, &made()).map_err(|error| format!("{folder}: {error}"))
        }
        _ => Err(String::from(
            "FOLDER, files FOLDER, list, counts or show K is wanted",
        )),
    };
    match done {
        Ok(true) => ExitCode::SUCCESS,
        Ok(false) => ExitCode::FAILURE,
        Err(error) => {
            eprintln!("{program}: {error}");
            ExitCode::FAILURE
        }
    }
}

/// A file of samples/.
pub fn sample(name: &str) -> Vec<u8> {
    let folder = Path::new(env!("CARGO_MANIFEST_DIR")).join("../../samples");
    fs::read(folder.join(name)).expect("the sample is there")
}

/// A reader may close its end early.
fn print(text: String) {
    let _ = io::stdout().write_all(text.as_bytes());
}

fn place_of(word: &str, count: usize) -> Result<usize, String> {
    match word.parse() {
        Ok(place) if place < count => Ok(place),
        _ => Err(format!(
            "there is no {word}; `list` names those from 0 to {}",
            count - 1
        )),
    }
}

/// Whether there is no fault.
fn sound(made: &Made) -> bool {
    for fault in &made.faults {
        println!("fault: {fault}");
    }
    made.faults.is_empty()
}

fn write(folder: &str, made: &Made) -> io::Result<bool> {
    if made.stdin.is_empty() {
        return Err(io::Error::other("there is no crate to write for"));
    }
    fs::write(Path::new(folder).join("stdin"), &made.stdin)?;
    fs::write(Path::new(folder).join("stdout"), &made.stdout)?;
    Ok(sound(made))
}

fn write_files(folder: &str, names: &[String], made: &Made) -> io::Result<bool> {
    if made.files.is_empty() {
        return Err(io::Error::other("there are no files to write"));
    }
    let first = names.len() - made.files.len();
    for (place, name) in names.iter().enumerate().skip(first) {
        let file = &made.files[place - first];
        let path = Path::new(folder).join(format!("{place} {name}"));
        fs::write(format!("{}.input", path.display()), &file.input)?;
        fs::write(format!("{}.text", path.display()), &file.text)?;
        if !file.said.is_empty() {
            fs::write(format!("{}.said", path.display()), &file.said)?;
        }
    }
    Ok(sound(made))
}

#[cfg(test)]
mod tests {
    use super::*;

    #[test]
    fn a_place_that_is_none_is_told() {
        assert_eq!(place_of("0", 18), Ok(0));
        assert_eq!(place_of("17", 18), Ok(17));
        for word in ["18", "-1", "lamp", ""] {
            let told = format!("there is no {word}; `list` names those from 0 to 17");
            assert_eq!(place_of(word, 18), Err(told));
        }
    }
}

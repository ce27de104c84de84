//! The inputs of program `load`: good lines, and lines that are something else.

use reference::kinds::Kind;
use reference::load::load;

/// What `load` says of a line that is neither of the two.
const EXPECTED: &[u8] = b"load: expected one line on standard input, `rom SEED` or `schedule SEED M`, with decimal numbers: SEED from 0 to 4294967295, M from 0 to 4096\n";

/// What a line gives.
#[derive(Clone, Copy, PartialEq, Eq, Debug)]
enum Due {
    Bytes(usize),
    Refused(u8),
    Expected,
}

pub struct Input {
    pub name: String,
    pub line: Vec<u8>,
    due: Due,
}

impl Input {
    fn found(&self) -> Due {
        match load(&self.line) {
            Some(Ok(bytes)) => Due::Bytes(bytes.len()),
            Some(Err(number)) => Due::Refused(number),
            None => Due::Expected,
        }
    }

    pub fn text(&self) -> Vec<u8> {
        text_of(&self.line)
    }

    pub fn said(&self) -> Vec<u8> {
        match self.found() {
            Due::Expected => EXPECTED.to_vec(),
            _ => Vec::new(),
        }
    }

    pub fn told(&self) -> String {
        format!(
            "{:?}: {:?}\n",
            String::from_utf8_lossy(&self.line),
            self.found()
        )
    }
}

/// What is written of a line.
pub fn text_of(line: &[u8]) -> Vec<u8> {
    match load(line) {
        Some(Ok(bytes)) => bytes,
        Some(Err(number)) => format!("refused {number}\n").into_bytes(),
        None => Vec::new(),
    }
}

fn input(name: &str, line: &[u8], due: Due) -> Input {
    Input {
        name: name.to_string(),
        line: line.to_vec(),
        due,
    }
}

pub const KINDS: [Kind<Input>; 3] = [("good", good), ("refused", refused), ("bad", bad)];

fn good() -> Vec<Input> {
    vec![
        input("a ROM", b"rom 1\n", Due::Bytes(2_000)),
        input("seed 0", b"rom 0\n", Due::Bytes(2_000)),
        input("the largest seed", b"rom 4294967295\n", Due::Bytes(2_000)),
        input("no line end", b"rom 1", Due::Bytes(2_000)),
        input(
            "zeros in front",
            b"rom 000000000000000007\n",
            Due::Bytes(2_000),
        ),
        input("a schedule", b"schedule 1 100\n", Due::Bytes(1_000)),
        input("no records", b"schedule 1 0\n", Due::Bytes(0)),
        input("one record", b"schedule 4294967295 1\n", Due::Bytes(10)),
        input("all records", b"schedule 20 4096\n", Due::Bytes(40_960)),
        input(
            "a schedule, no line end",
            b"schedule 20 007",
            Due::Bytes(70),
        ),
    ]
}

fn refused() -> Vec<Input> {
    vec![
        input("a record too many", b"schedule 1 4097\n", Due::Refused(43)),
        input(
            "m above 32 bits",
            b"schedule 1 4294967297\n",
            Due::Refused(43),
        ),
        input(
            "m of 18 digits",
            b"schedule 1 999999999999999999\n",
            Due::Refused(43),
        ),
    ]
}

fn bad() -> Vec<Input> {
    let long = [b"rom 1\n".as_slice(), &[b' '; 70_000]].concat();
    let many = [b"rom ".as_slice(), &[b'1'; 5_000]].concat();
    [
        ("nothing", b"".as_slice()),
        ("a line end", b"\n"),
        ("a word", b"rom\n"),
        ("no seed", b"rom \n"),
        ("a seed of 33 bits", b"rom 4294967296\n"),
        ("a seed of 19 digits", b"rom 0000000000000000007\n"),
        ("a sign", b"rom -1\n"),
        ("a plus", b"rom +1\n"),
        ("hexadecimal", b"rom 0x10\n"),
        ("a letter behind", b"rom 1a\n"),
        ("a space behind", b"rom 1 \n"),
        ("two spaces", b"rom  1\n"),
        ("a space in front", b" rom 1\n"),
        ("a tab", b"rom\t1\n"),
        ("two lines", b"rom 1\nrom 2\n"),
        ("two line ends", b"rom 1\n\n"),
        ("a return", b"rom 1\r\n"),
        ("large letters", b"ROM 1\n"),
        ("another word", b"ram 1\n"),
        ("a longer word", b"roms 1\n"),
        ("a number more", b"rom 1 2\n"),
        ("a schedule without numbers", b"schedule\n"),
        ("a schedule without m", b"schedule 1\n"),
        ("a schedule with an empty m", b"schedule 1 \n"),
        ("a schedule with three numbers", b"schedule 1 2 3\n"),
        (
            "a schedule with a seed of 33 bits",
            b"schedule 4294967296 1\n",
        ),
        ("m of 19 digits", b"schedule 1 1000000000000000000\n"),
        ("m with a point", b"schedule 1 1.5\n"),
        ("bytes", &[0, 1, 2, 255]),
        ("a zero byte behind", b"rom 1\0"),
        ("a long input", &long),
        ("many digits", &many),
    ]
    .map(|(name, line)| input(name, line, Due::Expected))
    .into()
}

pub fn faults(inputs: &[Input]) -> Vec<String> {
    let wrong = inputs.iter().filter(|input| input.found() != input.due);
    wrong
        .map(|input| format!("{}: {:?}", input.name, input.found()))
        .collect()
}

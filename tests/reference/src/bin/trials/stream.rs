//! The commands of a stream, and the texts that crates test_calls, test_values, test_store, test_bank and test_shortest
//! write of it.
//!
//! A command is 24 bytes: a letter (1), a value (1), a place (2), a length (4), n (8) and a runner (8),
//! numbers big-endian; what a letter doesn't name is 0. Some have bytes behind them, as many as n says. A
//! stream ends with the letter `.`; another letter, or an end before it, is told in words.
//!
//! # The first two programs
//!
//! | letter | what |
//! |---|---|
//! | R | the ROM has this length; its bytes follow, the rest of it is 0. With n = 0 the bytes stay |
//! | S | the schedule, likewise, up to 65,536 bytes |
//! | H | the sheet of the calls that follow; its 24 bytes follow: ROM bytes, rows and levels, 8 each. A stream begins with one |
//! | G | a line for a group: how many calls since the last G, how many of them were refused, a digest |
//! | U | a list has ended, and is the one to be remembered: the unbroken one |
//! | E | a list has ended, and is compared with the remembered one |
//! | P | a line for a panel: number, cycles, instructions, log bytes, digest of what is kept and of the log, all of the remembered list; then of the lists since the last P: how many, how many ended the same, calls, refused calls, and the sum of their numbers |
//! | . | the end |
//!
//! A call's value is 0: it is told in a line; 1: it is one more of a group; 2: it is one more of a list.
//!
//! Before a call, byte i of a log, a report or a buffer is (7 i + 13) modulo 256. A digest is h = 0, and for
//! each byte x, h = (257 h + x + 1) modulo 1,000,000,007. The digest of a group goes through what its calls
//! left, one behind the other; a number in it is taken as one byte is, modulo 1,000,000,007.
//!
//! The sums of a list are the number of its first call that didn't finish, the cycles, instructions and log
//! bytes together, the joined log, and what is kept at its end. It ends the same where all these are those of
//! the remembered list, every stop in it has the same number, every call that finished did the cycles that
//! it was asked for, no log is changed past its records, and every refused call changed nothing.
//!
//! # test_calls: the board's call
//!
//! | letter | what |
//! |---|---|
//! | I | the image, likewise, up to 512 bytes |
//! | X | the image's byte at the place has the value |
//! | K, B | the image is kept; the kept one is brought back |
//! | F | `wharfnettle_fresh` on a buffer of this length, which is then the image: one more of a group, its number and the buffer |
//! | T | `wharfnettle_convert` of the image to a buffer of this length, up to 512 bytes, and to the version n |
//! | C | `wharfnettle_call` with n and the runner, on a log of this length and a report of as many bytes as the place says |
//!
//! A call's line has its number, the report's four counts, and digests of image, log and report, each as long
//! as it was lent. In a group it leaves number, report, image and log. What a list keeps is the image. A
//! refused call is one that answers no 0, 3, 22 or 23: image and log have to stay, and the report to be 32
//! zeros, or to stay where it is shorter. A conversion of a group leaves its number and the buffer, and the image
//! stays. In a list the buffer is then the image, but a refused one has to leave the buffer, and the image stays.
//!
//! # test_values: runs, saves and restores of a state as a value
//!
//! A value is 133 bytes: PC (2), stack (6), Acc, C, C', DPH, DPL, INT, INTE, TM, level, mark, owed, register,
//! counter, ports C to I, RAM (96), cycle number (8), count of cycles with RES high.
//!
//! | letter | what |
//! |---|---|
//! | V | the state is the value that follows |
//! | X | its byte at the place has the value |
//! | K, B | the state is kept; the kept one is brought back |
//! | I | the buffer of images, likewise, up to 512 bytes |
//! | Y | its byte at the place has the value |
//! | A | a run of n cycles by the runner, on a log of this length from the place on; its state is the next one's |
//! | W | a save, of version 1 where the place is 1, else of version 2, to the first bytes of the buffer, as many as the length says |
//! | O | a restore of so many bytes of it; its state is the next one's |
//! | L | a list begins, with a log of this length; U and E name it too |
//!
//! A run's line has number, cycles, clock cycles, instructions, log bytes, steps, and digests of the state and
//! of the whole log. In a group a run leaves these numbers, the state and the log; a save its number and the
//! buffer; a restore its number and the state. The runs of a list write to one log, each from the place on up
//! to which those before wrote. What a list keeps is the state. A refused run has to answer the state given
//! and every count 0, a refused save to leave the buffer, and a refused restore to answer the fresh state,
//! which a list doesn't go on from.
//!
//! # test_store: images under names
//!
//! H, G and . are as above, and the values 0 and 1 of a call.
//!
//! | letter | what |
//! |---|---|
//! | M | the store, likewise, up to 65,536 bytes |
//! | N | the name, likewise, up to 64 bytes |
//! | I | the image, likewise, up to 512 bytes |
//! | X | the store's byte at the place has the value |
//! | W | the image is stored under the name: `store::keep` |
//! | O | a recall of the name: `store::recall_check`, `store::find` and `store::recall` |
//!
//! A line of W has its number and the digest of the whole store; one of O its number, the place of the entry, and
//! the length and the digest of the part handed back, all 0 but the number where it is refused. In a group they leave
//! the same, with all bytes in place of their digest.
//!
//! # test_bank: rounds of a bank
//!
//! H, G and . are as above, and the values 0 and 1 of a call; R and S are the ROMs and the schedules of all panels, up to
//! 65,536 bytes each.
//!
//! | letter | what |
//! |---|---|
//! | M | the bank, likewise, up to 4,096 bytes |
//! | X | its byte at the place has the value |
//! | K, B | the bank is kept; the kept one is brought back. Its length stays |
//! | C | `wharfnettle_round` of the bank with n cycles for all, on logs of this length, in which the pattern stands |
//! | V | the same by `bank::round_row`: a panel of the bank is then 198 bytes, the value of its state in place of its image |
//!
//! A line has the number and the digests of the whole bank and of the logs. In a group they leave the same, with all bytes in place
//! of their digests. A bank of values has at most sixteen panels that are looked at; more are counted.
//!
//! # test_shortest: shortest schedules that still stop
//!
//! R, S, I, H, G and . are as above, and the values 0 and 1 of a call.
//!
//! | letter | what |
//! |---|---|
//! | F | `shortest::find` for n cycles, on a log of this length, up to 65,536 bytes, from the state of the image on the uPD546 |
//!
//! A line has the number, k, and 1 where the log is as it was, but for the first 16n bytes after 22, 23 and 82; else 0. In a group
//! a call leaves the same.

use reference::case::{digest_from, state_bytes};
use reference::{Runner, Sheet, State, Version};

/// What becomes of a call.
#[derive(Clone, Copy, PartialEq, Eq, Debug)]
pub enum Of {
    Line,
    Group,
    List,
}

impl Of {
    fn value(self) -> u8 {
        match self {
            Of::Line => 0,
            Of::Group => 1,
            Of::List => 2,
        }
    }
}

#[derive(Clone, Copy, Default)]
struct Command {
    letter: u8,
    value: u8,
    place: u16,
    length: u32,
    n: u64,
    runner: u64,
}

/// The commands so far, and the sheet that they come to.
#[derive(Default)]
pub struct Stream {
    pub bytes: Vec<u8>,
    sheet: Option<Sheet>,
}

impl Stream {
    fn put(&mut self, command: Command) {
        self.bytes.extend([command.letter, command.value]);
        self.bytes.extend(command.place.to_be_bytes());
        self.bytes.extend(command.length.to_be_bytes());
        self.bytes.extend(command.n.to_be_bytes());
        self.bytes.extend(command.runner.to_be_bytes());
    }

    /// A command with bytes behind it. Zeros at their end need not be sent, but for the last byte.
    fn put_bytes(&mut self, letter: u8, bytes: &[u8]) {
        let zeros = bytes.iter().rev().take_while(|&&byte| byte == 0).count();
        let given = (bytes.len() - zeros).max(bytes.len().min(1));
        self.put(Command {
            letter,
            length: u32::try_from(bytes.len()).expect("a length has four bytes"),
            n: given as u64,
            ..Command::default()
        });
        self.bytes.extend(&bytes[..given]);
    }

    fn put_length(&mut self, letter: u8, length: usize) {
        self.put(Command {
            letter,
            length: u32::try_from(length).expect("a length has four bytes"),
            ..Command::default()
        });
    }

    fn put_letter(&mut self, letter: u8) {
        self.put(Command {
            letter,
            ..Command::default()
        });
    }

    fn put_byte(&mut self, letter: u8, place: usize, value: u8) {
        self.put(Command {
            letter,
            value,
            place: u16::try_from(place).expect("a place has two bytes"),
            ..Command::default()
        });
    }

    /// The sheet of what follows, where it isn't that of what was before.
    pub fn sheet(&mut self, sheet: Sheet) {
        if self.sheet == Some(sheet) {
            return;
        }
        self.sheet = Some(sheet);
        self.put(Command {
            letter: b'H',
            n: 24,
            ..Command::default()
        });
        for number in [sheet.rom, sheet.rows, sheet.levels] {
            self.bytes.extend(number.to_be_bytes());
        }
    }

    pub fn rom(&mut self, rom: &[u8]) {
        self.put_bytes(b'R', rom);
    }

    pub fn rom_length(&mut self, length: usize) {
        self.put_length(b'R', length);
    }

    pub fn schedule(&mut self, schedule: &[u8]) {
        self.put_bytes(b'S', schedule);
    }

    pub fn schedule_length(&mut self, length: usize) {
        self.put_length(b'S', length);
    }

    pub fn image(&mut self, image: &[u8]) {
        self.put_bytes(b'I', image);
    }

    pub fn image_length(&mut self, length: usize) {
        self.put_length(b'I', length);
    }

    pub fn keep(&mut self) {
        self.put_letter(b'K');
    }

    pub fn bring_back(&mut self) {
        self.put_letter(b'B');
    }

    pub fn tell_group(&mut self) {
        self.put_letter(b'G');
    }

    pub fn tell_panel(&mut self) {
        self.put_letter(b'P');
    }

    pub fn end(&mut self) {
        self.put_letter(b'.');
    }

    /// The byte of the image, of test_calls.
    pub fn image_byte(&mut self, place: usize, value: u8) {
        self.put_byte(b'X', place, value);
    }

    pub fn fresh(&mut self, length: usize) {
        self.put_length(b'F', length);
    }

    pub fn call(&mut self, of: Of, n: u64, runner: u64, log: usize, report: usize) {
        self.put(Command {
            letter: b'C',
            value: of.value(),
            place: u16::try_from(report).expect("a report's length has two bytes"),
            length: u32::try_from(log).expect("a log's length has four bytes"),
            n,
            runner,
        });
    }

    pub fn convert(&mut self, of: Of, version: u64, length: usize) {
        self.put(Command {
            letter: b'T',
            value: of.value(),
            length: u32::try_from(length).expect("a length has four bytes"),
            n: version,
            ..Command::default()
        });
    }

    pub fn remember_call(&mut self) {
        self.put_letter(b'U');
    }

    pub fn end_calls(&mut self) {
        self.put_letter(b'E');
    }

    pub fn value(&mut self, state: &State) {
        self.put_bytes(b'V', &state_bytes(state));
    }

    pub fn value_byte(&mut self, place: usize, value: u8) {
        self.put_byte(b'X', place, value);
    }

    /// The byte of the buffer of images, of test_values.
    pub fn buffer_byte(&mut self, place: usize, value: u8) {
        self.put_byte(b'Y', place, value);
    }

    pub fn run(&mut self, of: Of, n: u64, runner: Runner, log: usize, place: usize) {
        self.put(Command {
            letter: b'A',
            value: of.value(),
            place: u16::try_from(place).expect("a place has two bytes"),
            length: u32::try_from(log).expect("a log's length has four bytes"),
            n,
            runner: u64::from(runner == Runner::Skipping),
        });
    }

    pub fn save(&mut self, of: Of, version: Version, length: usize) {
        self.put(Command {
            letter: b'W',
            value: of.value(),
            place: version.number(),
            length: u32::try_from(length).expect("a length has four bytes"),
            ..Command::default()
        });
    }

    pub fn restore(&mut self, of: Of, length: usize) {
        self.put(Command {
            letter: b'O',
            value: of.value(),
            length: u32::try_from(length).expect("a length has four bytes"),
            ..Command::default()
        });
    }

    pub fn store(&mut self, store: &[u8]) {
        self.put_bytes(b'M', store);
    }

    pub fn store_length(&mut self, length: usize) {
        self.put_length(b'M', length);
    }

    pub fn store_byte(&mut self, place: usize, value: u8) {
        self.put_byte(b'X', place, value);
    }

    pub fn name(&mut self, name: &[u8]) {
        self.put_bytes(b'N', name);
    }

    pub fn bank(&mut self, bank: &[u8]) {
        self.put_bytes(b'M', bank);
    }

    pub fn bank_length(&mut self, length: usize) {
        self.put_length(b'M', length);
    }

    pub fn bank_byte(&mut self, place: usize, value: u8) {
        self.put_byte(b'X', place, value);
    }

    fn put_cycles(&mut self, letter: u8, of: Of, n: u64, log: usize) {
        self.put(Command {
            letter,
            value: of.value(),
            length: u32::try_from(log).expect("a length has four bytes"),
            n,
            ..Command::default()
        });
    }

    pub fn round(&mut self, of: Of, t: u64, logs: usize) {
        self.put_cycles(b'C', of, t, logs);
    }

    pub fn round_of_values(&mut self, of: Of, t: u64, logs: usize) {
        self.put_cycles(b'V', of, t, logs);
    }

    fn put_call(&mut self, letter: u8, of: Of) {
        self.put(Command {
            letter,
            value: of.value(),
            ..Command::default()
        });
    }

    pub fn keep_image(&mut self, of: Of) {
        self.put_call(b'W', of);
    }

    pub fn recall(&mut self, of: Of) {
        self.put_call(b'O', of);
    }

    pub fn find(&mut self, of: Of, n: u64, log: usize) {
        self.put_cycles(b'F', of, n, log);
    }

    pub fn begin_runs(&mut self, log: usize) {
        self.put_length(b'L', log);
    }

    pub fn remember_runs(&mut self, log: usize) {
        self.put_length(b'U', log);
    }

    pub fn end_runs(&mut self, log: usize) {
        self.put_length(b'E', log);
    }
}

/// What the calls of a group left.
#[derive(Default)]
pub struct Chain {
    pub calls: u64,
    pub refused: u64,
    pub digest: u64,
}

impl Chain {
    pub fn number(&mut self, number: u64) {
        const MODULUS: u64 = 1_000_000_007;
        self.digest = (257 * self.digest + number % MODULUS + 1) % MODULUS;
    }

    pub fn bytes(&mut self, bytes: &[u8]) {
        self.digest = digest_from(self.digest, bytes);
    }

    /// One call more, with its number.
    pub fn called(&mut self, number: u8) {
        self.calls += 1;
        self.refused += u64::from(is_refusal(number));
        self.number(u64::from(number));
    }

    pub fn line(&self) -> String {
        format!("{} {} {}\n", self.calls, self.refused, self.digest)
    }
}

pub fn is_refusal(number: u8) -> bool {
    !matches!(number, 0 | 3 | 22 | 23)
}

/// What a panel's line has: the remembered list, and what is due of the others.
pub struct PanelLine {
    pub number: u8,
    pub cycles: u64,
    pub begun: u64,
    pub written: usize,
    pub kept: u64,
    pub log: u64,
    pub lists: usize,
    pub calls: u64,
    pub refused: u64,
    pub numbers: u64,
}

impl PanelLine {
    /// Every list ends the same.
    pub fn text(&self) -> String {
        format!(
            "{} {} {} {} {} {} {} {} {} {} {}\n",
            self.number,
            self.cycles,
            self.begun,
            self.written,
            self.kept,
            self.log,
            self.lists,
            self.lists,
            self.calls,
            self.refused,
            self.numbers,
        )
    }
}

/// What stands in a buffer of this length before a call.
pub fn pattern(length: usize) -> Vec<u8> {
    (0..length).map(|place| (7 * place + 13) as u8).collect()
}

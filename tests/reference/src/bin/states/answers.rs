//! What the four programs write of an input.

use reference::call::{call, fresh, REPORT};
use reference::numbers::{FINISHED, IMAGE_LENGTH, ROM_LENGTH};
use reference::shortest::{shortest, CYCLE_LOG};
use reference::store::{recall, store};
use reference::{run as run_state, Runner, Sheet, State};

const NAME: usize = 8;
const COUNT: usize = 4;
const IMAGE: usize = 82;

/// "n (4 bytes, big-endian), ROM and schedule"
const ROM: usize = 2_000;

/// The longest store that is taken: 700 entries.
const MOST_BYTES: usize = 63_000;

/// The log of a run that is no refusal has at most so many bytes here.
const LOG: usize = 1 << 22;

/// The most cycles that `shortening` has a log for.
const MOST_CYCLES: u64 = 400_000;

/// The bytes of a record, and how many records `shortening` shows.
const RECORD: usize = 10;
const SHOWN: usize = 8;

/// How a program ends.
#[derive(Clone, Copy, PartialEq, Eq, Debug)]
pub enum End {
    Whole,
    Refused(u8),
    /// Its input isn't what it reads.
    Mistaken,
}

/// What is written, and said on standard error.
pub struct Answer {
    pub end: End,
    pub text: Vec<u8>,
    pub said: Vec<u8>,
}

fn whole(text: Vec<u8>) -> Answer {
    Answer {
        end: End::Whole,
        text,
        said: Vec::new(),
    }
}

fn refused(number: u8) -> Answer {
    Answer {
        end: End::Refused(number),
        text: format!("refused {number}\n").into_bytes(),
        said: Vec::new(),
    }
}

fn mistaken(program: &str, last: &str) -> Answer {
    let said = format!(
        "{program}: expected on standard input a name of 8 bytes, the length of a store in 4 bytes, 63000 at most, {last}\n"
    );
    Answer {
        end: End::Mistaken,
        text: Vec::new(),
        said: said.into_bytes(),
    }
}

fn number(bytes: &[u8]) -> u64 {
    bytes.iter().fold(0, |n, &byte| n << 8 | u64::from(byte))
}

/// The name, the store, and what is behind it.
fn parts(input: &[u8]) -> Option<(&[u8], &[u8], &[u8])> {
    let (name, rest) = input.split_at_checked(NAME)?;
    let (count, rest) = rest.split_at_checked(COUNT)?;
    let bytes = usize::try_from(number(count)).ok()?;
    let (store, rest) = rest.split_at_checked(bytes)?;
    (bytes <= MOST_BYTES).then_some((name, store, rest))
}

pub fn storing(input: &[u8]) -> Answer {
    let Some((name, before, image)) = parts(input) else {
        return mistaken("storing", "the store and an image");
    };
    let mut after = before.to_vec();
    match store(&mut after, name, image, Sheet::UPD546) {
        FINISHED => whole(after),
        number => refused(number),
    }
}

pub fn recalling(input: &[u8]) -> Answer {
    match parts(input) {
        Some((name, kept, [])) => match recall(kept, name, Sheet::UPD546) {
            (FINISHED, image) => whole(image.to_vec()),
            (number, _) => refused(number),
        },
        _ => mistaken("recalling", "and the store"),
    }
}

/// An input that ends before its image does has none of 82 bytes.
pub fn forward(input: &[u8]) -> Answer {
    let Some((head, rest)) = input.split_at_checked(1 + 8 + COUNT) else {
        return refused(IMAGE_LENGTH);
    };
    let n = number(&head[1..9]);
    if head[0] == 0 {
        let mut image = vec![0; IMAGE];
        fresh(&mut image);
        return run(image, rest, n);
    }
    match rest.split_at_checked(IMAGE) {
        Some((image, panel)) if number(&head[9..]) == IMAGE as u64 => run(image.to_vec(), panel, n),
        _ => refused(IMAGE_LENGTH),
    }
}

/// A panel under 2,004 bytes has no ROM.
fn run(mut image: Vec<u8>, panel: &[u8], n: u64) -> Answer {
    let split = |panel| {
        <[u8]>::split_at_checked(panel, COUNT)?
            .1
            .split_at_checked(ROM)
    };
    let (rom, schedule) = split(panel).unwrap_or_default();
    let mut log = vec![0; LOG];
    let mut report = [0; REPORT];
    let end = call(
        &mut image,
        rom,
        schedule,
        &mut log,
        n,
        1,
        &mut report,
        Sheet::UPD546,
    );
    if ![0, 22, 23].contains(&end) {
        assert_ne!(end, 3, "the log has room");
        return refused(end);
    }
    log.truncate(usize::try_from(number(&report[16..24])).expect("it fits the log"));
    whole([log, image, vec![end]].concat())
}

/// A byte that says what is wanted, and a panel: the shortest schedule from the fresh state, as a text, or where the byte isn't 0 as a panel.
pub fn shortening(input: &[u8]) -> Answer {
    let Some((head, schedule)) = input.split_at_checked(1 + COUNT + ROM) else {
        return refused(ROM_LENGTH);
    };
    let (count, rom) = head[1..].split_at(COUNT);
    let (n, state) = (number(count), State::fresh());
    let mut log = vec![0; (CYCLE_LOG * MOST_CYCLES) as usize];
    let (stop, k) = shortest(rom, schedule, &state, n, &mut log, Sheet::UPD546);
    if ![22, 23].contains(&stop) {
        return refused(stop);
    }
    let kept = &schedule[..RECORD * k];
    if head[0] != 0 {
        return whole([count, rom, kept].concat());
    }
    let runner = Runner::Plain;
    let stopped = run_state(runner, rom, kept, &state, &mut log, n, Sheet::UPD546).state;
    let mut text = format!(
        "stop {stop} cycle {} address {:03X}\n",
        stopped.cycle, stopped.pc
    );
    text += &format!("records {k} of {}\n", schedule.len() / RECORD);
    text += "record cycle A B C D INT RES\n";
    let records = kept.chunks(RECORD).enumerate();
    for (place, record) in records.skip(k.saturating_sub(SHOWN)) {
        let (cycle, lines) = record.split_at(6);
        let [ab, cd, int, res] = [0, 1, 2, 3].map(|line| lines[line]);
        text += &format!("{} {} ", place + 1, number(cycle));
        text += &format!(
            "{:X} {:X} {:X} {:X} {int} {res}\n",
            ab >> 4,
            ab & 15,
            cd >> 4,
            cd & 15
        );
    }
    whole(text.into_bytes())
}

//! Drawn calls of the board, with what has to come of each: for board/fuzz.c, which makes them of the
//! archive.
//!
//! `board CALLS SEED` writes so many calls to standard output. `board show SEED K` tells all of call K
//! of a seed, from 0 on.
//!
//! # The stream
//!
//! Numbers have 8 bytes, big-endian. First the seed and how many calls there are; then the calls.
//! A call is 17 numbers and bytes:
//!
//! | number | what |
//! |---|---|
//! | 0 | 1 for `wharfnettle_fresh`, 16 for `wharfnettle_convert`, 32 for `wharfnettle_store`, 64 for `wharfnettle_recall`, 128 for `wharfnettle_round`, 256 for `wharfnettle_shortest`, else 0; plus 2 where a ROM follows, 4 where a schedule follows, 8 where a part of length 0 has a null pointer |
//! | 1 to 8 | lengths of image, ROM, schedule, log, report, store, name and bank |
//! | 9, 10 | n, runner |
//! | 11 | f: before the call, byte i of log and report is (7 i + f) modulo 256 |
//! | 12 | the number due |
//! | 13 | w: the log's bytes from w on are due as they were; of `wharfnettle_shortest` those before are any |
//! | 14 to 16 | the sheet: ROM bytes, rows, levels |
//!
//! The bytes are the image given; the ROM and the schedule, where they follow, else they are those of
//! the call before; the store, the name and the bank; then what is due: the image, the report, the first w bytes of
//! the log, but of `wharfnettle_shortest` none, the store, the bank. A conversion takes the image to the bytes of the report, and n is the version. A round has
//! n cycles for all, and ROM, schedule and log are those of all its panels. The
//! report of `wharfnettle_shortest` is the buffer for k.

mod drawn;

use std::env;
use std::io::{self, BufWriter, Write};
use std::process::ExitCode;

use drawn::{Calls, Drawn, Function};
use reference::bank::round_bytes;
use reference::call::{call, convert, fresh};
use reference::lent::Lent;
use reference::shortest::{shortest_of_image, CYCLE_LOG};
use reference::store::{recall_to, store};
#[cfg(test)]
use reference::Sheet;
use reference::{restore, Runner};

/// What a call answers and leaves.
struct Due {
    number: u8,
    image: Vec<u8>,
    log: Vec<u8>,
    report: Vec<u8>,
    store: Vec<u8>,
    bank: Vec<u8>,
}

fn filled(length: usize, fill: u8) -> Vec<u8> {
    (0..length)
        .map(|place| (7 * place) as u8)
        .map(|byte| byte.wrapping_add(fill))
        .collect()
}

fn due(drawn: &Drawn) -> Due {
    let mut image = drawn.image.clone();
    let mut log = filled(drawn.log, drawn.fill);
    let mut report = filled(drawn.report, drawn.fill);
    let mut lent = drawn.store.clone();
    let mut bank = drawn.bank.clone();
    let number = match drawn.function {
        Function::Fresh => fresh(&mut image),
        Function::Convert => convert(&image, &mut report, drawn.n, drawn.sheet),
        Function::Store => store(&mut lent, &drawn.name, &image, drawn.sheet),
        Function::Recall => recall_to(&lent, &drawn.name, &mut image, drawn.sheet),
        Function::Round => round_bytes(
            &mut bank,
            &drawn.rom,
            &drawn.schedule,
            &mut log,
            drawn.n,
            drawn.sheet,
        ),
        Function::Shortest => shortest_of_image(
            &image,
            &drawn.rom,
            &drawn.schedule,
            drawn.n,
            &mut log,
            &mut report,
            drawn.sheet,
        ),
        Function::Call => call(
            &mut image,
            &drawn.rom,
            &drawn.schedule,
            &mut log,
            drawn.n,
            drawn.runner,
            &mut report,
            drawn.sheet,
        ),
    };
    Due {
        number,
        image,
        log,
        report,
        store: lent,
        bank,
    }
}

fn write_calls(count: u64, seed: u64, out: &mut impl Write) -> io::Result<()> {
    let mut calls = Calls::new(seed);
    let (mut rom, mut schedule) = (Vec::new(), Vec::new());
    put(out, &[seed, count])?;
    for _ in 0..count {
        let drawn = calls.next();
        let due = due(&drawn);
        let new_rom = drawn.rom != rom;
        let new_schedule = drawn.schedule != schedule;
        let written = written(&drawn, &due);
        put(
            out,
            &[
                u64::from(drawn.function == Function::Fresh)
                    | u64::from(new_rom) << 1
                    | u64::from(new_schedule) << 2
                    | u64::from(drawn.null) << 3
                    | u64::from(drawn.function == Function::Convert) << 4
                    | u64::from(drawn.function == Function::Store) << 5
                    | u64::from(drawn.function == Function::Recall) << 6
                    | u64::from(drawn.function == Function::Round) << 7
                    | u64::from(drawn.function == Function::Shortest) << 8,
                drawn.image.len() as u64,
                drawn.rom.len() as u64,
                drawn.schedule.len() as u64,
                drawn.log as u64,
                drawn.report as u64,
                drawn.store.len() as u64,
                drawn.name.len() as u64,
                drawn.bank.len() as u64,
                drawn.n,
                drawn.runner,
                u64::from(drawn.fill),
                u64::from(due.number),
                written as u64,
                drawn.sheet.rom,
                drawn.sheet.rows,
                drawn.sheet.levels,
            ],
        )?;
        out.write_all(&drawn.image)?;
        if new_rom {
            out.write_all(&drawn.rom)?;
        }
        if new_schedule {
            out.write_all(&drawn.schedule)?;
        }
        out.write_all(&drawn.store)?;
        out.write_all(&drawn.name)?;
        out.write_all(&drawn.bank)?;
        out.write_all(&due.image)?;
        out.write_all(&due.report)?;
        if drawn.function != Function::Shortest {
            out.write_all(&due.log[..written])?;
        }
        out.write_all(&due.store)?;
        out.write_all(&due.bank)?;
        calls.answered(&drawn, due.number, due.image, due.store, due.bank);
        (rom, schedule) = (drawn.rom, drawn.schedule);
    }
    out.flush()
}

/// Up to where the log is written, or may be: "whose bytes afterwards are free, also on 82".
fn written(drawn: &Drawn, due: &Due) -> usize {
    let before = filled(drawn.log, drawn.fill);
    let pairs = before.iter().rev().zip(due.log.iter().rev());
    let same = pairs.take_while(|(before, after)| before == after).count();
    match (drawn.function, due.number) {
        (Function::Shortest, 22 | 23 | 82) => (CYCLE_LOG * drawn.n) as usize,
        _ => drawn.log - same,
    }
}

fn put(out: &mut impl Write, numbers: &[u64]) -> io::Result<()> {
    numbers
        .iter()
        .try_for_each(|number| out.write_all(&number.to_be_bytes()))
}

/// All of one call: what is given, what is due, and the run of it where the image is a panel's.
fn told(seed: u64, place: u64) -> String {
    let mut calls = Calls::new(seed);
    for _ in 0..place {
        let drawn = calls.next();
        let due = due(&drawn);
        calls.answered(&drawn, due.number, due.image, due.store, due.bank);
    }
    let drawn = calls.next();
    let due = due(&drawn);
    let name = match drawn.function {
        Function::Fresh => "wharfnettle_fresh",
        Function::Convert => "wharfnettle_convert of the image to the report",
        Function::Store => "wharfnettle_store",
        Function::Recall => "wharfnettle_recall",
        Function::Round => "wharfnettle_round, with n cycles for all",
        Function::Shortest => "wharfnettle_shortest, k to the report",
        Function::Call => "wharfnettle_call",
    };
    let mut text = format!(
        "call {place} of seed {seed}: {name}, the number due is {}\n\
         lengths: image {}, ROM {}, schedule {}, log {}, report {}, store {}, bank {}; n {}, runner {}\n\
         {:?}\n\
         image given {}\nimage due   {}\nreport due  {}\nname {}\nstore given {}\nstore due   {}\n\
         bank given {}\nbank due   {}\n",
        due.number,
        drawn.image.len(),
        drawn.rom.len(),
        drawn.schedule.len(),
        drawn.log,
        drawn.report,
        drawn.store.len(),
        drawn.bank.len(),
        drawn.n,
        drawn.runner,
        drawn.sheet,
        hex(&drawn.image),
        hex(&due.image),
        hex(&due.report),
        hex(&drawn.name),
        hex(&drawn.store),
        hex(&due.store),
        hex(&drawn.bank),
        hex(&due.bank),
    );
    let (number, state) = restore(&drawn.image, drawn.sheet);
    if drawn.function == Function::Call && number == 0 {
        let runner = if drawn.runner == 0 {
            Runner::Plain
        } else {
            Runner::Skipping
        };
        let lent = Lent {
            runner,
            rom: drawn.rom,
            schedule: drawn.schedule,
            state,
            log: filled(drawn.log, drawn.fill),
            n: drawn.n,
            sheet: drawn.sheet,
        };
        text += "\n";
        text += &lent.told();
    }
    text
}

fn hex(bytes: &[u8]) -> String {
    bytes.iter().map(|byte| format!("{byte:02X}")).collect()
}

fn main() -> ExitCode {
    let words: Vec<String> = env::args().skip(1).collect();
    let number = |word: &String| word.parse::<u64>().ok();
    let done = match words.as_slice() {
        [word, seed, place] if word == "show" => match (number(seed), number(place)) {
            (Some(seed), Some(place)) => io::stdout().write_all(told(seed, place).as_bytes()),
            _ => Err(io::Error::other("a seed and a place are wanted")),
        },
        [count, seed] => match (number(count), number(seed)) {
            (Some(count), Some(seed)) => {
                write_calls(count, seed, &mut BufWriter::new(io::stdout().lock()))
            }
            _ => Err(io::Error::other("a number of calls and a seed are wanted")),
        },
        _ => Err(io::Error::other("CALLS SEED or show SEED K is wanted")),
    };
    match done {
        Ok(()) => ExitCode::SUCCESS,
        Err(error) => {
            eprintln!("board: {error}");
            ExitCode::FAILURE
        }
    }
}

#[cfg(test)]
mod tests {
    use super::*;

    #[test]
    fn every_number_is_drawn() {
        let mut calls = Calls::new(1);
        let mut ended = [0; 256];
        for _ in 0..24_000 {
            let drawn = calls.next();
            let due = due(&drawn);
            ended[usize::from(due.number)] += 1;
            calls.answered(&drawn, due.number, due.image, due.store, due.bank);
        }
        for number in [
            0, 1, 2, 3, 11, 12, 13, 14, 21, 22, 23, 31, 32, 33, 34, 51, 52, 53, 54, 61, 62, 63, 71,
            81, 82,
        ] {
            assert!(ended[number] >= 20, "{number}: {}", ended[number]);
        }
        assert!(ended[0] > 5_000, "{}", ended[0]);
    }

    /// Runs of smaller chips finish and stop, with any rows and levels; and a sheet is refused by each of its numbers.
    #[test]
    fn every_kind_of_sheet_is_drawn() {
        let mut calls = Calls::new(1);
        let (mut finished, mut stopped, mut wrong) = ([0; 4], [0; 4], [0; 3]);
        let (mut rows, mut short) = ([0; 32], 0);
        for _ in 0..20_000 {
            let drawn = calls.next();
            let due = due(&drawn);
            let Sheet {
                rom,
                rows: there,
                levels,
            } = drawn.sheet;
            if drawn.function == Function::Call && drawn.sheet.is_legal() {
                let smaller = drawn.sheet != Sheet::UPD546;
                finished[levels as usize] += usize::from(smaller && due.number == 0);
                stopped[levels as usize] += usize::from(smaller && due.number == 22);
                rows[there as usize] += usize::from(due.number == 0);
                short += usize::from(rom < 66 && due.number == 0);
            }
            if due.number == 71 {
                wrong[0] += usize::from(!(1..=2_000).contains(&rom));
                wrong[1] += usize::from(there > 31);
                wrong[2] += usize::from(!(1..=3).contains(&levels));
            }
            calls.answered(&drawn, due.number, due.image, due.store, due.bank);
        }
        assert!(
            finished[1..].iter().all(|&count| count > 300),
            "{finished:?}"
        );
        assert!(stopped[1..].iter().all(|&count| count > 50), "{stopped:?}");
        assert!(wrong.iter().all(|&count| count > 50), "{wrong:?}");
        assert!(
            rows.iter().filter(|&&count| count > 0).count() > 25,
            "{rows:?}"
        );
        assert!(short > 500, "{short}");
    }

    /// Stores are written and recalled from, and each call on them is refused by each of its numbers; entries are replaced and
    /// added.
    #[test]
    fn every_kind_of_store_is_drawn() {
        let mut calls = Calls::new(1);
        let (mut stored, mut recalled) = ([0; 256], [0; 256]);
        let (mut replaced, mut deepest) = (0, 0);
        for _ in 0..20_000 {
            let drawn = calls.next();
            let due = due(&drawn);
            let number = usize::from(due.number);
            match drawn.function {
                Function::Store => {
                    stored[number] += 1;
                    let name = drawn
                        .store
                        .chunks(90)
                        .position(|entry| entry.starts_with(&drawn.name) && !drawn.name.is_empty());
                    replaced += usize::from(number == 0 && name.is_some());
                    deepest = deepest.max(name.unwrap_or(0));
                }
                Function::Recall => recalled[number] += 1,
                _ => {}
            }
            calls.answered(&drawn, due.number, due.image, due.store, due.bank);
        }
        for number in [0, 51, 53, 71] {
            assert!(stored[number] >= 20, "{number}: {}", stored[number]);
        }
        for number in [0, 1, 51, 52, 71] {
            assert!(recalled[number] >= 20, "{number}: {}", recalled[number]);
        }
        assert!(replaced > 100 && deepest > 2, "{replaced} {deepest}");
    }

    /// Rounds are refused by each of their numbers; of those that aren't, panels end with every number, at every place of a row, and
    /// banks have every length.
    #[test]
    fn every_kind_of_round_is_drawn() {
        let mut calls = Calls::new(1);
        let (mut rounds, mut panels, mut lengths) = ([0; 256], [0; 256], [0; 17]);
        let (mut refused, mut again) = ([0; 16], 0);
        for _ in 0..60_000 {
            let drawn = calls.next();
            let due = due(&drawn);
            if drawn.function == Function::Round {
                rounds[usize::from(due.number)] += 1;
                if due.number == 0 {
                    lengths[due.bank.len() / 147] += 1;
                    again += usize::from(drawn.bank.chunks(147).any(|entry| entry[121] > 0));
                    for (place, entry) in due.bank.chunks(147).enumerate() {
                        panels[usize::from(entry[146])] += 1;
                        refused[place] += usize::from(entry[146] > 23);
                    }
                }
            }
            calls.answered(&drawn, due.number, due.image, due.store, due.bank);
        }
        for number in [0, 61, 62, 63, 71] {
            assert!(rounds[number] >= 20, "{number}: {}", rounds[number]);
        }
        for number in [0, 2, 3, 11, 13, 14, 21, 22, 23, 32, 33, 34] {
            assert!(panels[number] >= 20, "{number}: {}", panels[number]);
        }
        assert!(lengths.iter().all(|&count| count > 0), "{lengths:?}");
        assert!(refused.iter().all(|&count| count > 10), "{refused:?}");
        assert!(again > 100, "{again}");
    }

    /// Searches are refused by each of their numbers; of those that aren't, k is 0, some of the records and all of them, with either stop, and a
    /// larger k may end otherwise.
    #[test]
    fn every_kind_of_search_is_drawn() {
        let mut calls = Calls::new(1);
        let (mut ended, mut none, mut some, mut whole, mut past) = ([0; 256], 0, 0, 0, 0);
        for _ in 0..60_000 {
            let drawn = calls.next();
            let due = due(&drawn);
            if drawn.function == Function::Shortest {
                ended[usize::from(due.number)] += 1;
                let room = written(&drawn, &due);
                assert_eq!(due.log[room..], filled(drawn.log, drawn.fill)[room..]);
                if matches!(due.number, 22 | 23) {
                    let k = due.report[..8]
                        .iter()
                        .fold(0, |k, &b| k << 8 | usize::from(b));
                    let records = drawn.schedule.len() / 10;
                    none += usize::from(k == 0);
                    some += usize::from(0 < k && k < records);
                    whole += usize::from(0 < k && k == records);
                    past += usize::from(drawn.log > room);
                }
            }
            calls.answered(&drawn, due.number, due.image, due.store, due.bank);
        }
        for number in [1, 2, 11, 13, 14, 21, 22, 23, 31, 32, 33, 34, 71, 81, 82] {
            assert!(ended[number] >= 8, "{number}: {}", ended[number]);
        }
        assert!(none > 50 && some > 20 && whole > 5, "{none} {some} {whole}");
        assert!(past > 20, "{past}");
    }

    /// Images with each count are run and converted, and resets are written.
    #[test]
    fn every_count_is_drawn() {
        let mut calls = Calls::new(1);
        let (mut called, mut converted, mut resets) = ([0; 5], [0; 5], 0);
        for _ in 0..24_000 {
            let drawn = calls.next();
            let due = due(&drawn);
            let (number, state) = restore(&drawn.image, drawn.sheet);
            if number == 0 && matches!(due.number, 0 | 3 | 22 | 23 | 54) {
                match drawn.function {
                    Function::Call => called[usize::from(state.count)] += 1,
                    Function::Convert => converted[usize::from(state.count)] += 1,
                    _ => {}
                }
            }
            if drawn.function == Function::Call && due.number == 0 {
                let written = due.report[16..24]
                    .iter()
                    .fold(0, |n, &b| n << 8 | usize::from(b));
                resets += due.log[..written]
                    .chunks(8)
                    .filter(|record| record[6] == 0)
                    .count();
            }
            calls.answered(&drawn, due.number, due.image, due.store, due.bank);
        }
        assert!(called.iter().all(|&count| count > 100), "{called:?}");
        assert!(converted.iter().all(|&count| count > 10), "{converted:?}");
        assert!(resets > 300, "{resets}");
    }
}

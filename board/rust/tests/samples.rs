//! The sample panels of the repository, and what the other interpreter printed of them: in one call, and
//! in slices of many lengths.

use std::fs;
use std::path::{Path, PathBuf};

use wharfnettle::{
    back, call, forward, fresh_image, last_round, log_bytes, recall, round, shortest, store,
    Answer, Counts, End, Found, Image, Needs, Runner, Sheet, ENTRY, NAME, PANEL, ROM,
};

const UPD546: Sheet = Sheet::UPD546;

fn sample(name: &str) -> PathBuf {
    Path::new(env!("CARGO_MANIFEST_DIR"))
        .join("../../samples")
        .join(name)
}

/// A panel as program `trace` reads it.
struct Panel {
    n: u64,
    rom: Vec<u8>,
    schedule: Vec<u8>,
    sheet: Sheet,
}

fn panel(name: &str) -> Panel {
    let bytes = fs::read(sample(&format!("{name}.panel"))).unwrap();
    let (n, rest) = bytes.split_at(4);
    let (rom, schedule) = rest.split_at(ROM.min(rest.len()));
    Panel {
        n: n.iter().fold(0, |n, &byte| n << 8 | u64::from(byte)),
        rom: rom.to_vec(),
        schedule: schedule.to_vec(),
        sheet: UPD546,
    }
}

impl Panel {
    /// One call for all cycles.
    fn whole(&self, runner: Runner) -> (Answer, Image, Vec<u8>) {
        let mut image = fresh_image();
        let mut log = vec![0; log_bytes(self.n as usize)];
        let answer = call(
            &mut image,
            &self.rom,
            &self.schedule,
            &mut log,
            self.n,
            runner,
            self.sheet,
        );
        log.truncate(answer.counts.log_bytes as usize);
        (answer, image, log)
    }

    /// Slices of this length on one image, by the runners in turn.
    fn slices(&self, length: u64) -> (Answer, Image, Vec<u8>) {
        let (mut image, mut log) = (fresh_image(), Vec::new());
        let (mut counts, mut end, mut done) = (Counts::default(), End::Finished, 0);
        while done < self.n {
            let n = length.min(self.n - done);
            let runner = [Runner::Plain, Runner::Skipping][(done / length % 2) as usize];
            let mut part = vec![0; log_bytes(n as usize)];
            let (rom, schedule, sheet) = (&self.rom, &self.schedule, self.sheet);
            let answer = call(&mut image, rom, schedule, &mut part, n, runner, sheet);
            log.extend_from_slice(&part[..answer.counts.log_bytes as usize]);
            counts.cycles += answer.counts.cycles;
            counts.instructions += answer.counts.instructions;
            counts.log_bytes += answer.counts.log_bytes;
            end = answer.end;
            done += n;
        }
        (Answer { end, counts }, image, log)
    }
}

/// What `trace` prints of a call from the fresh state.
fn text(answer: Answer, log: &[u8]) -> String {
    if let End::Refused(number) = answer.end {
        return format!("refused {number}\n");
    }
    let mut text = String::from("cycle port value\n");
    for record in log.chunks_exact(8) {
        let cycle = record[..6]
            .iter()
            .fold(0, |n, &byte| n << 8 | u64::from(byte));
        let port = match record[6] {
            0 => 'R',
            port => char::from(b'A' + port),
        };
        text += &format!("{cycle} {port} {:X}\n", record[7]);
    }
    let Counts {
        cycles,
        instructions,
        ..
    } = answer.counts;
    text + &format!("end {cycles} {instructions} {}\n", answer.end.number())
}

#[test]
fn every_sample_prints_as_it_has_to() {
    let names = [
        "lamp", "call", "blink", "lobby", "reset", "order", "level", "res", "torn", "long",
    ];
    for name in names {
        let due = fs::read_to_string(sample(&format!("{name}.text"))).unwrap();
        for runner in [Runner::Plain, Runner::Skipping] {
            let (answer, _, log) = panel(name).whole(runner);
            assert_eq!(text(answer, &log), due, "{name}");
        }
    }
    let (answer, _, _) = panel("short").whole(Runner::Plain);
    assert_eq!(answer.end, End::Refused(21));
}

#[test]
fn slices_end_as_one_call() {
    for name in ["lamp", "call", "blink", "lobby", "reset"] {
        let panel = panel(name);
        let (mut whole, image, log) = panel.whole(Runner::Plain);
        whole.counts.steps = 0;
        for length in (1..100).chain([333, panel.n]) {
            let sliced = panel.slices(length);
            assert_eq!(sliced, (whole, image, log.clone()), "{name} by {length}");
        }
    }
}

#[test]
fn the_skipping_runner_takes_fewer_steps() {
    let (plain, ..) = panel("blink").whole(Runner::Plain);
    let (skipping, ..) = panel("blink").whole(Runner::Skipping);
    assert_eq!(plain.counts.steps, 1_500);
    assert!(skipping.counts.steps < 150);
}

#[test]
fn a_log_that_is_too_short_stops_and_may_go_on() {
    let panel = panel("lobby");
    let (_, image, log) = panel.whole(Runner::Plain);
    let (mut small, mut joined, mut done) = (fresh_image(), Vec::new(), 0);
    let mut stops = 0;
    loop {
        let mut part = [0; 8];
        let left = panel.n - done;
        let answer = call(
            &mut small,
            &panel.rom,
            &panel.schedule,
            &mut part,
            left,
            Runner::Skipping,
            UPD546,
        );
        joined.extend_from_slice(&part[..answer.counts.log_bytes as usize]);
        done += answer.counts.cycles;
        match answer.end {
            End::Finished => break,
            end => assert_eq!(end, End::Stopped(3)),
        }
        stops += 1;
    }
    assert_eq!((small, joined, done), (image, log, 1_200));
    assert_eq!(stops, 10);
}

#[test]
fn a_damaged_image_is_refused_and_left() {
    let panel = panel("lamp");
    let refusal = |image: &mut [u8]| {
        let before = image.to_vec();
        let answer = call(
            image,
            &panel.rom,
            &panel.schedule,
            &mut [],
            10,
            Runner::Plain,
            UPD546,
        );
        assert_eq!(image, before);
        assert_eq!(answer.counts, Counts::default());
        answer.end
    };
    let changed = |at: usize, byte| {
        let mut image = fresh_image();
        image[at] = byte;
        image
    };
    assert_eq!(refusal(&mut []), End::Refused(31));
    assert_eq!(refusal(&mut fresh_image()[..81]), End::Refused(31));
    assert_eq!(refusal(&mut [0; 83]), End::Refused(31));
    // Also a whole image of version 1.
    let mut old = back(&fresh_image(), UPD546).unwrap();
    assert_eq!(refusal(&mut old), End::Refused(31));
    assert_eq!(refusal(&mut changed(2, b'4')), End::Refused(32));
    assert_eq!(refusal(&mut changed(4, 1)), End::Refused(33));
    assert_eq!(refusal(&mut changed(3, 1)), End::Refused(33));
    // The marks go up to 4, that of LI.
    assert_eq!(refusal(&mut changed(16, 5)), End::Refused(34));
    // The count goes up to 4.
    assert_eq!(refusal(&mut changed(81, 5)), End::Refused(34));
}

#[test]
fn an_image_from_before_the_reset_goes_on_and_back() {
    let panel = panel("lobby");
    let (_, whole, log) = panel.whole(Runner::Plain);
    let old = fs::read(sample("lobby.image")).unwrap();
    let mut image = forward(&old, UPD546).unwrap();
    assert_eq!(back(&image, UPD546).unwrap()[..], old);
    // It was saved after 450 of the 1,200 cycles.
    let mut rest = vec![0; log_bytes(750)];
    let answer = call(
        &mut image,
        &panel.rom,
        &panel.schedule,
        &mut rest,
        750,
        Runner::Plain,
        UPD546,
    );
    assert_eq!((answer.end, image), (End::Finished, whole));
    assert!(log.ends_with(&rest[..answer.counts.log_bytes as usize]));
    // With a count it doesn't go back.
    image[81] = 2;
    assert_eq!(back(&image, UPD546), Err(54));
    assert_eq!(forward(&image, UPD546), Ok(image));
    image[81] = 5;
    assert_eq!(forward(&image, UPD546), Err(34));
    assert_eq!(forward(&old[..80], UPD546), Err(31));
    assert_eq!(forward(&whole[..81], UPD546), Err(33));
}

#[test]
fn the_cycle_number_has_an_end() {
    let panel = panel("lamp");
    let mut image = fresh_image();
    for n in [1 << 48, u64::MAX] {
        let (rom, runner) = (&panel.rom, Runner::Plain);
        let answer = call(&mut image, rom, &[], &mut [], n, runner, UPD546);
        assert_eq!(answer.end, End::Refused(2));
    }
    assert_eq!(image, fresh_image());
}

/// 1,000 bytes, rows 0 and 1, two levels.
const HALF: Sheet = Sheet {
    rom_bytes: 1_000,
    rows: 0b00011,
    levels: 2,
};

/// A panel of that chip: INM in row 1 and in row 2, which isn't there, with a subroutine that writes Acc to E; in a loop.
fn half() -> Panel {
    let mut rom = vec![0; 1_000];
    rom[..16].copy_from_slice(&[
        0x15, 0x10, 0x1D, 0x00, 0x38, 0xA9, 0x00, 0x15, 0x20, 0x1D, 0x00, 0x38, 0xA9, 0x00, 0xC0,
        0x00,
    ]);
    rom[0x100..0x103].copy_from_slice(&[0xAB, 0xE0, 0x48]);
    rom[0x3E0..0x3E2].copy_from_slice(&[0x44, 0x48]);
    Panel {
        n: 500,
        rom,
        schedule: Vec::new(),
        sheet: HALF,
    }
}

#[test]
fn a_smaller_chip_runs_in_slices() {
    let panel = half();
    let (mut whole, image, log) = panel.whole(Runner::Plain);
    assert_eq!((whole.end, whole.counts.cycles), (End::Finished, 500));
    // Row 1 counts, and row 2 reads 0.
    let values: Vec<u8> = log.chunks_exact(8).map(|record| record[7]).collect();
    assert_eq!(values[..8], [1, 0, 2, 0, 3, 0, 4, 0]);
    whole.counts.steps = 0;
    for length in (1..60).chain([333]) {
        assert_eq!(panel.slices(length), (whole, image, log.clone()));
    }
    // Nothing is kept of what isn't there: rows 2 to 4, and the third level.
    assert_eq!(
        (&image[11..13], &image[43..67]),
        (&[0; 2][..], &[0; 24][..])
    );
}

#[test]
fn a_sheet_is_held_to_its_limits_and_an_image_to_the_sheet() {
    let panel = half();
    let end = |image: &mut [u8], sheet: Sheet| {
        let before = image.to_vec();
        let answer = call(image, &panel.rom, &[], &mut [], 0, Runner::Plain, sheet);
        assert_eq!(image, before);
        answer.end
    };
    let of = |rom_bytes: u64, rows: u64, levels: u64| Sheet {
        rom_bytes,
        rows,
        levels,
    };
    assert_eq!(end(&mut fresh_image(), HALF), End::Finished);
    for wrong in [
        of(0, 3, 2),
        of(2_001, 3, 2),
        of(u64::MAX, 3, 2),
        of(1_000, 32, 2),
        of(1_000, 256, 2),
        of(1_000, 3, 0),
        of(1_000, 3, 4),
        of(1_000, 3, 257),
    ] {
        assert_eq!(end(&mut [], wrong), End::Refused(71), "{wrong:?}");
        assert_eq!(forward(&[], wrong), Err(71), "{wrong:?}");
    }
    // The ROM is of one length, also where it is longer.
    assert_eq!(end(&mut fresh_image(), of(999, 3, 2)), End::Refused(21));
    assert_eq!(end(&mut fresh_image(), UPD546), End::Refused(21));
    // A word of row 2, and a third level.
    for place in [43, 12] {
        let mut image = fresh_image();
        image[place] = 1;
        assert_eq!(end(&mut image, HALF), End::Refused(34), "{place}");
        assert_eq!(back(&image, HALF), Err(34));
        assert!(back(&image, UPD546).is_ok());
    }
}

/// A rush hour that is run up to its busiest, stored, run on, recalled and run on again: the same log and image.
#[test]
fn a_rush_hour_is_come_back_to() {
    let panel = panel("lobby");
    let (_, whole, log) = panel.whole(Runner::Plain);
    let run = |image: &mut Image, n: u64| {
        let mut part = vec![0; log_bytes(n as usize)];
        let (rom, schedule) = (&panel.rom, &panel.schedule);
        let answer = call(image, rom, schedule, &mut part, n, Runner::Skipping, UPD546);
        assert_eq!(answer.end, End::Finished);
        part.truncate(answer.counts.log_bytes as usize);
        part
    };
    let mut lent = [0; 3 * ENTRY];
    let mut image = fresh_image();
    store(&mut lent, b"morning ", &image, UPD546).unwrap();
    let first = run(&mut image, 450);
    store(&mut lent, b"full    ", &image, UPD546).unwrap();
    let kept = lent;
    for _ in 0..3 {
        let mut image = recall(&lent, b"full    ", UPD546).unwrap();
        let rest = run(&mut image, panel.n - 450);
        assert_eq!((image, [&first[..], &rest].concat()), (whole, log.clone()));
        assert_eq!(lent, kept);
    }
    assert_eq!(recall(&lent, b"morning ", UPD546), Ok(fresh_image()));
    // A known name is replaced in its place, and the other stays.
    store(&mut lent, b"morning ", &whole, UPD546).unwrap();
    assert_eq!(
        (&lent[NAME..ENTRY], &lent[ENTRY..]),
        (&whole[..], &kept[ENTRY..])
    );
}

#[test]
fn a_store_that_is_refused_is_left() {
    let fresh = fresh_image();
    let mut sound = [0; 2 * ENTRY];
    store(&mut sound, b"fresh   ", &fresh, UPD546).unwrap();
    let refused = |lent: &[u8], name: &[u8], image: &[u8], sheet: Sheet| {
        let mut after = lent.to_vec();
        let number = store(&mut after, name, image, sheet).unwrap_err();
        assert_eq!(after, lent);
        number
    };
    let bad = Sheet {
        levels: 4,
        ..UPD546
    };
    assert_eq!(refused(&sound, b"new     ", &fresh, bad), 71);
    assert_eq!(recall(&sound, b"fresh   ", bad), Err(71));
    for name in [&[0; 8][..], b"fresh", b"", b"fresh     "] {
        assert_eq!(refused(&sound, name, &fresh, UPD546), 51);
        assert_eq!(recall(&sound, name, UPD546), Err(51));
    }
    let old = back(&fresh, UPD546).unwrap();
    for image in [&old[..], &[0; 82], &[]] {
        assert_eq!(refused(&sound, b"new     ", image, UPD546), 51);
    }
    // Torn, with a byte in the tail, and with a name twice.
    let mut tail = sound;
    tail[179] = 1;
    let mut twice = [&sound[..ENTRY], &sound[..ENTRY]].concat();
    for lent in [&sound[..179], &tail, &twice] {
        assert_eq!(refused(lent, b"fresh   ", &fresh, UPD546), 51);
        assert_eq!(recall(lent, b"fresh   ", UPD546), Err(51));
    }
    // Full.
    twice[ENTRY] = b'F';
    assert_eq!(refused(&twice, b"new     ", &fresh, UPD546), 53);
    assert_eq!(refused(&[], b"new     ", &fresh, UPD546), 53);
    assert_eq!(recall(&twice, b"Fresh   ", UPD546), Ok(fresh));
    assert_eq!(recall(&twice, b"new     ", UPD546), Err(52));
    // A word of row 2 under a sheet without it.
    let mut held = fresh;
    held[43] = 1;
    store(&mut sound, b"held    ", &held, UPD546).unwrap();
    assert_eq!(recall(&sound, b"fresh   ", HALF), Err(51));
    assert_eq!(refused(&[0; ENTRY], b"held    ", &held, HALF), 51);
    assert_eq!(recall(&sound, b"held    ", UPD546), Ok(held));
}

/// The samples as a bank: each panel ends as its own call does, however many rounds there are.
#[test]
fn a_bank_is_its_panels_calls() {
    let names = ["lobby", "lamp", "reset", "keys"];
    let panels: Vec<Panel> = names.into_iter().map(panel).collect();
    for rounds in [1, 2, 7] {
        let needs = |panel: &Panel| Needs {
            wish: panel.n.div_ceil(rounds),
            rom: panel.rom.len() as u64,
            schedule: panel.schedule.len() as u64,
            log: log_bytes(panel.n.div_ceil(rounds) as usize) as u64,
        };
        let entry = |each: &Panel| wharfnettle::panel(&fresh_image(), needs(each));
        let mut bank: Vec<u8> = panels.iter().flat_map(entry).collect();
        let roms: Vec<u8> = panels.iter().flat_map(|panel| panel.rom.clone()).collect();
        let schedules: Vec<u8> = panels.iter().flat_map(|p| p.schedule.clone()).collect();
        let mut joined = vec![Vec::new(); panels.len()];
        for _ in 0..rounds {
            let mut logs = vec![0; panels.iter().map(|panel| needs(panel).log as usize).sum()];
            round(&mut bank, &roms, &schedules, &mut logs, u64::MAX, UPD546).unwrap();
            let mut at = 0;
            for (place, each) in panels.iter().enumerate() {
                let entry = bank[place * PANEL..][..PANEL].try_into().unwrap();
                let written = last_round(entry).counts.log_bytes as usize;
                joined[place].extend_from_slice(&logs[at..at + written]);
                at += needs(each).log as usize;
            }
        }
        for (place, each) in panels.iter().enumerate() {
            let n = needs(each).wish * rounds;
            let (answer, image, log) = Panel {
                n,
                ..panel(names[place])
            }
            .whole(Runner::Plain);
            let entry: &[u8; PANEL] = bank[place * PANEL..][..PANEL].try_into().unwrap();
            assert_eq!(last_round(entry).end, answer.end, "{}", names[place]);
            assert_eq!((&entry[..82], &joined[place]), (&image[..], &log));
        }
    }
}

#[test]
fn a_bank_that_is_refused_is_left() {
    let needs = Needs {
        wish: 10,
        rom: 2_000,
        schedule: 0,
        log: 0,
    };
    let bank = wharfnettle::panel(&fresh_image(), needs).repeat(17);
    let roms = vec![0; 16 * ROM];
    let refused = |length: usize, roms: &[u8], sheet: Sheet| {
        let mut after = bank[..length].to_vec();
        let number = round(&mut after, roms, &[], &mut [], 160, sheet).unwrap_err();
        assert_eq!(after, bank[..length]);
        number
    };
    let bad = Sheet {
        levels: 4,
        ..UPD546
    };
    assert_eq!(refused(17 * PANEL, &roms, bad), 71);
    assert_eq!(refused(17 * PANEL, &[], UPD546), 61);
    assert_eq!(refused(16 * PANEL, &roms[1..], UPD546), 62);
    assert_eq!(refused(16 * PANEL - 1, &roms[1..15 * ROM], UPD546), 62);
    assert_eq!(refused(16 * PANEL - 1, &roms, UPD546), 63);
    let mut none = [];
    assert_eq!(round(&mut none, &[], &[], &mut [], 160, UPD546), Ok(()));
    // One damaged image is that panel's refusal alone.
    let mut bank = bank[..3 * PANEL].to_vec();
    bank[PANEL] = b'u';
    round(&mut bank, &roms, &[], &mut [], 160, UPD546).unwrap();
    let ends: Vec<End> = bank
        .chunks(PANEL)
        .map(|entry| last_round(entry.try_into().unwrap()).end)
        .collect();
    assert_eq!(ends, [End::Finished, End::Refused(32), End::Finished]);
}

/// A panel that waits for bit 0 of port A, then for bit 1, and halts: of many line changes those up to the second matter.
#[test]
fn the_line_changes_that_matter() {
    const N: u64 = 2_000;
    let mut rom = vec![0; ROM];
    rom[..5].copy_from_slice(&[0x54, 0xC0, 0x55, 0xC2, 0x1C]);
    let values = [0, 4, 0, 1, 5, 0, 8, 2, 0, 3, 1, 0];
    let record = |(cycle, value): (u8, &u8)| [0, 0, 0, 0, 0, cycle, value << 4, 0, 1, 0];
    let schedule: Vec<u8> = (10..).step_by(9).zip(&values).flat_map(record).collect();
    let image = fresh_image();
    let mut log = vec![7; log_bytes(N as usize) + 5];
    let found =
        |schedule: &[u8], n: u64, log: &mut [u8]| shortest(&image, &rom, schedule, n, log, UPD546);
    let due = Found {
        number: 23,
        records: 8,
    };
    assert_eq!(found(&schedule, N, &mut log), Ok(due));
    assert_eq!(log[log_bytes(N as usize)..], [7; 5]);
    assert_eq!(found(&schedule[..80], N, &mut log), Ok(due));
    // Without the eighth it goes on waiting.
    assert_eq!(found(&schedule[..70], N, &mut log), Err(82));
    let mut short = vec![7; log_bytes(N as usize) - 1];
    assert_eq!(found(&schedule, N, &mut short), Err(81));
    assert_eq!(found(&schedule[..75], N, &mut short), Err(11));
    assert!(short.iter().all(|&byte| byte == 7));
    assert_eq!(
        shortest(&image, &rom, &schedule, N, &mut log, HALF),
        Err(21)
    );
    assert_eq!(shortest(&[], &rom, &schedule, N, &mut log, UPD546), Err(31));
    let bad = Sheet {
        levels: 4,
        ..UPD546
    };
    assert_eq!(shortest(&[], &[], &[0], u64::MAX, &mut [], bad), Err(71));
}

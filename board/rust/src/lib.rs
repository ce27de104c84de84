//! The board's call for Rust programs. What the C header asks of a caller, the types see to here: a
//! slice has its length, and slices that are written overlap nothing.
//!
//! ```
//! use wharfnettle::{call, fresh_image, log_bytes, End, Runner, Sheet};
//!
//! // OCD A5, LI 3, OE, and code 1C, which is no instruction.
//! let mut rom = [0; wharfnettle::ROM];
//! rom[..5].copy_from_slice(&[0x1E, 0xA5, 0x93, 0x44, 0x1C]);
//! let mut image = fresh_image();
//! let mut log = vec![0; log_bytes(10)];
//! let answer = call(&mut image, &rom, &[], &mut log, 10, Runner::Skipping, Sheet::UPD546);
//! assert_eq!(answer.end, End::Stopped(23));
//! assert_eq!(answer.counts.cycles, 5);
//! assert_eq!(log[..8], [0, 0, 0, 0, 0, 0, 2, 5]);
//! ```

#![warn(missing_docs)]

/// The bytes of an image.
pub const IMAGE: usize = 82;
/// The bytes of an image of version 1, which boards have that know no reset.
pub const OLD_IMAGE: usize = 81;
/// The bytes of the uPD546's ROM.
pub const ROM: usize = 2_000;
/// The bytes of a name, under which a store keeps an image.
pub const NAME: usize = 8;
/// The bytes of an entry of a store: a name, then an image.
pub const ENTRY: usize = NAME + IMAGE;
/// The bytes of a panel in a bank: an image, what the panel needs, and what the last round did.
pub const PANEL: usize = IMAGE + 4 * 8 + REPORT + 1;
/// The most panels of a bank.
pub const PANELS: usize = 16;
const REPORT: usize = 32;
const REPORT_AT: usize = PANEL - 1 - REPORT;

/// An image: the panel as bytes, to be kept while the building is switched off.
pub type Image = [u8; IMAGE];

/// An image of version 1.
pub type OldImage = [u8; OLD_IMAGE];

/// The bytes of log with which a call for n cycles never stops with 3.
pub const fn log_bytes(n: usize) -> usize {
    16 * n
}

/// How much of the machine a chip of the family has. It is given last, the same one with every call for a panel; one outside its limits is
/// refused with 71.
#[derive(Clone, Copy, PartialEq, Eq, Debug)]
pub struct Sheet {
    /// ROM bytes, 1 to 2,000.
    pub rom_bytes: u64,
    /// Which of RAM rows 0 to 4 there are: bit i for row i, so 0 to 31. Row 7 is always there.
    pub rows: u64,
    /// Levels of the stack, 1 to 3.
    pub levels: u64,
}

impl Sheet {
    /// The uPD546 itself.
    pub const UPD546: Sheet = Sheet {
        rom_bytes: ROM as u64,
        rows: 31,
        levels: 3,
    };
}

/// Which runner. They do the same; the timer-skipping one takes fewer steps.
#[derive(Clone, Copy, PartialEq, Eq, Debug)]
pub enum Runner {
    /// A step for each machine cycle.
    Plain,
    /// Jumps over timer waits.
    Skipping,
}

/// How a call ended, with the number that `wharfnettle.h` explains.
#[derive(Clone, Copy, PartialEq, Eq, Debug)]
pub enum End {
    /// All n cycles are done.
    Finished,
    /// 3, 22 or 23: the panel stands before an instruction that wasn't begun.
    Stopped(u8),
    /// Image and log are as they were, and the counts are 0.
    Refused(u8),
}

impl End {
    /// The number: 0, that of the stop or that of the refusal.
    pub fn number(self) -> u8 {
        match self {
            End::Finished => 0,
            End::Stopped(number) | End::Refused(number) => number,
        }
    }
}

/// What one call did.
#[derive(Clone, Copy, PartialEq, Eq, Debug, Default)]
pub struct Counts {
    /// Machine cycles.
    pub cycles: u64,
    /// Instructions begun.
    pub instructions: u64,
    /// Bytes written to the log, from its first one on.
    pub log_bytes: u64,
    /// Steps of the runner.
    pub steps: u64,
}

/// What a call answers.
#[derive(Clone, Copy, PartialEq, Eq, Debug)]
pub struct Answer {
    /// How it ended.
    pub end: End,
    /// What it did.
    pub counts: Counts,
}

/// What a panel of a bank needs: the machine cycles that it would like of a round, and how many bytes its ROM, schedule and log have.
#[derive(Clone, Copy, PartialEq, Eq, Debug)]
pub struct Needs {
    /// Machine cycles.
    pub wish: u64,
    /// Bytes of its ROM.
    pub rom: u64,
    /// Bytes of its schedule.
    pub schedule: u64,
    /// Bytes of its log; with [`log_bytes`] of its wish it never stops with 3.
    pub log: u64,
}

mod c {
    extern "C" {
        pub fn wharfnettle_call(
            image: *mut u8,
            image_length: usize,
            rom: *const u8,
            rom_length: usize,
            schedule: *const u8,
            schedule_length: usize,
            log: *mut u8,
            log_length: usize,
            n: u64,
            runner: u64,
            report: *mut u8,
            report_length: usize,
            rom_bytes: u64,
            rows: u64,
            levels: u64,
        ) -> u8;
        pub fn wharfnettle_fresh(image: *mut u8, image_length: usize) -> u8;
        pub fn wharfnettle_convert(
            from: *const u8,
            from_length: usize,
            to: *mut u8,
            to_length: usize,
            version: u64,
            rom_bytes: u64,
            rows: u64,
            levels: u64,
        ) -> u8;
        pub fn wharfnettle_store(
            store: *mut u8,
            store_length: usize,
            name: *const u8,
            name_length: usize,
            image: *const u8,
            image_length: usize,
            rom_bytes: u64,
            rows: u64,
            levels: u64,
        ) -> u8;
        pub fn wharfnettle_recall(
            store: *const u8,
            store_length: usize,
            name: *const u8,
            name_length: usize,
            image: *mut u8,
            image_length: usize,
            rom_bytes: u64,
            rows: u64,
            levels: u64,
        ) -> u8;
        pub fn wharfnettle_round(
            bank: *mut u8,
            bank_length: usize,
            roms: *const u8,
            roms_length: usize,
            schedules: *const u8,
            schedules_length: usize,
            logs: *mut u8,
            logs_length: usize,
            t: u64,
            rom_bytes: u64,
            rows: u64,
            levels: u64,
        ) -> u8;
        pub fn wharfnettle_shortest(
            image: *const u8,
            image_length: usize,
            rom: *const u8,
            rom_length: usize,
            schedule: *const u8,
            schedule_length: usize,
            n: u64,
            log: *mut u8,
            log_length: usize,
            found: *mut u8,
            found_length: usize,
            rom_bytes: u64,
            rows: u64,
            levels: u64,
        ) -> u8;
    }
}

/// Restores the panel of an image, runs it for n machine cycles and saves it. Slices of any length and
/// content may be given: what is wrong with them is refused. An `Image` has the right length; bytes
/// that were read from somewhere may be given as they are.
pub fn call(
    image: &mut [u8],
    rom: &[u8],
    schedule: &[u8],
    log: &mut [u8],
    n: u64,
    runner: Runner,
    sheet: Sheet,
) -> Answer {
    let mut report = [0; REPORT];
    // SAFETY: each pointer leads to as many bytes as the length behind it says. `image`, `log` and
    // `report` are borrowed to be written, so they overlap nothing and nobody else uses them.
    let number = unsafe {
        c::wharfnettle_call(
            image.as_mut_ptr(),
            image.len(),
            rom.as_ptr(),
            rom.len(),
            schedule.as_ptr(),
            schedule.len(),
            log.as_mut_ptr(),
            log.len(),
            n,
            u64::from(runner == Runner::Skipping),
            report.as_mut_ptr(),
            report.len(),
            sheet.rom_bytes,
            sheet.rows,
            sheet.levels,
        )
    };
    answer(number, &report)
}

/// What a number and a report say.
fn answer(number: u8, report: &[u8]) -> Answer {
    let end = match number {
        0 => End::Finished,
        3 | 22 | 23 => End::Stopped(number),
        _ => End::Refused(number),
    };
    let count = |place: usize| {
        let bytes = &report[8 * place..8 * place + 8];
        bytes.iter().fold(0, |n, &byte| n << 8 | u64::from(byte))
    };
    let counts = Counts {
        cycles: count(0),
        instructions: count(1),
        log_bytes: count(2),
        steps: count(3),
    };
    Answer { end, counts }
}

/// The image of a panel that was never run; it is one of every chip.
pub fn fresh_image() -> Image {
    let mut image = [0; IMAGE];
    // SAFETY: the pointer leads to as many bytes as the length says, and nobody else uses them.
    let number = unsafe { c::wharfnettle_fresh(image.as_mut_ptr(), image.len()) };
    assert_eq!(number, 0, "82 bytes are enough for an image");
    image
}

/// Takes an image of either version forward to version 2: one that was kept before there was a reset gets
/// a count of 0. Bytes of any length and content may be given; what is wrong with them is answered.
pub fn forward(image: &[u8], sheet: Sheet) -> Result<Image, u8> {
    let mut to = [0; IMAGE];
    convert(image, &mut to, 2, sheet).map(|()| to)
}

/// Takes an image of either version back to version 1, for a board that knows no reset; 54 where its count
/// isn't 0.
pub fn back(image: &[u8], sheet: Sheet) -> Result<OldImage, u8> {
    let mut to = [0; OLD_IMAGE];
    convert(image, &mut to, 1, sheet).map(|()| to)
}

fn convert(from: &[u8], to: &mut [u8], version: u64, sheet: Sheet) -> Result<(), u8> {
    // SAFETY: each pointer leads to as many bytes as the length behind it says. `to` is borrowed to be
    // written, so it overlaps nothing and nobody else uses it.
    let number = unsafe {
        c::wharfnettle_convert(
            from.as_ptr(),
            from.len(),
            to.as_mut_ptr(),
            to.len(),
            version,
            sheet.rom_bytes,
            sheet.rows,
            sheet.levels,
        )
    };
    done(number)
}

/// Keeps an image under a name of eight bytes, in a store of some entries of [`ENTRY`] bytes, all zero at first. A known name's image is
/// replaced in its place; a new name takes the first unused entry. Slices of any length and content may be given: what is wrong with
/// them is answered, 71, 51 or 53, and then the store is as it was.
pub fn store(store: &mut [u8], name: &[u8], image: &[u8], sheet: Sheet) -> Result<(), u8> {
    // SAFETY: each pointer leads to as many bytes as the length behind it says. `store` is borrowed to be
    // written, so it overlaps nothing and nobody else uses it.
    let number = unsafe {
        c::wharfnettle_store(
            store.as_mut_ptr(),
            store.len(),
            name.as_ptr(),
            name.len(),
            image.as_ptr(),
            image.len(),
            sheet.rom_bytes,
            sheet.rows,
            sheet.levels,
        )
    };
    done(number)
}

/// The image that was stored last under a name; or, in this order, 71, 51 and 52.
pub fn recall(store: &[u8], name: &[u8], sheet: Sheet) -> Result<Image, u8> {
    let mut image = [0; IMAGE];
    // SAFETY: each pointer leads to as many bytes as the length behind it says, and nobody else uses `image`.
    let number = unsafe {
        c::wharfnettle_recall(
            store.as_ptr(),
            store.len(),
            name.as_ptr(),
            name.len(),
            image.as_mut_ptr(),
            image.len(),
            sheet.rom_bytes,
            sheet.rows,
            sheet.levels,
        )
    };
    done(number).map(|()| image)
}

/// A panel of a bank that has had no round yet.
pub fn panel(image: &Image, needs: Needs) -> [u8; PANEL] {
    let mut panel = [0; PANEL];
    panel[..IMAGE].copy_from_slice(image);
    let numbers = [needs.wish, needs.rom, needs.schedule, needs.log];
    for (place, number) in panel[IMAGE..REPORT_AT].chunks_exact_mut(8).zip(numbers) {
        place.copy_from_slice(&number.to_be_bytes());
    }
    panel
}

/// What a panel of a bank did in the last round.
pub fn last_round(panel: &[u8; PANEL]) -> Answer {
    answer(panel[PANEL - 1], &panel[REPORT_AT..PANEL - 1])
}

/// Runs all panels of a bank, which share t machine cycles; ROMs, schedules and logs stand end to end in the bank's order. A bank is up to
/// [`PANELS`] entries of [`PANEL`] bytes. Slices of any length and content may be given: what is wrong with them is answered, 71, 61, 62 or
/// 63, and then nothing is changed. What is wrong with one panel is that panel's own, and [`last_round`] tells it.
pub fn round(
    bank: &mut [u8],
    roms: &[u8],
    schedules: &[u8],
    logs: &mut [u8],
    t: u64,
    sheet: Sheet,
) -> Result<(), u8> {
    // SAFETY: each pointer leads to as many bytes as the length behind it says. `bank` and `logs` are borrowed
    // to be written, so they overlap nothing and nobody else uses them.
    let number = unsafe {
        c::wharfnettle_round(
            bank.as_mut_ptr(),
            bank.len(),
            roms.as_ptr(),
            roms.len(),
            schedules.as_ptr(),
            schedules.len(),
            logs.as_mut_ptr(),
            logs.len(),
            t,
            sheet.rom_bytes,
            sheet.rows,
            sheet.levels,
        )
    };
    done(number)
}

/// What is found of a panel that stops.
#[derive(Clone, Copy, PartialEq, Eq, Debug)]
pub struct Found {
    /// The number of the stop, 22 or 23.
    pub number: u8,
    /// The smallest number of records, from the first one on, with which it still stops so.
    pub records: u64,
}

/// The shortest schedule with which the panel of an image still stops as it does with all of it, within n cycles. Each run is lent the
/// first [`log_bytes`] of n of the log, which hold nothing of use afterwards. Slices of any length and content may be given; what is wrong
/// is answered: 71, the image's refusals and the run's, 81 where the log is shorter than that, and 82 where the panel doesn't stop.
pub fn shortest(
    image: &[u8],
    rom: &[u8],
    schedule: &[u8],
    n: u64,
    log: &mut [u8],
    sheet: Sheet,
) -> Result<Found, u8> {
    let mut found = [0; 8];
    // SAFETY: each pointer leads to as many bytes as the length behind it says. `log` and `found` are borrowed
    // to be written, so they overlap nothing and nobody else uses them.
    let number = unsafe {
        c::wharfnettle_shortest(
            image.as_ptr(),
            image.len(),
            rom.as_ptr(),
            rom.len(),
            schedule.as_ptr(),
            schedule.len(),
            n,
            log.as_mut_ptr(),
            log.len(),
            found.as_mut_ptr(),
            found.len(),
            sheet.rom_bytes,
            sheet.rows,
            sheet.levels,
        )
    };
    match number {
        22 | 23 => Ok(Found {
            number,
            records: u64::from_be_bytes(found),
        }),
        _ => Err(number),
    }
}

fn done(number: u8) -> Result<(), u8> {
    match number {
        0 => Ok(()),
        _ => Err(number),
    }
}

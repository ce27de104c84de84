//! How the calls are drawn. A panel has a sheet, in one of two cases the uPD546's, and gets some dozens of calls, one after the other
//! on its image; some keep the image in the panel's store, or recall one from it, some run a bank, and some search for the shortest schedule. Most are sound, and some have a part that is damaged, or
//! another sheet.

use reference::asking::questions;
use reference::bank::{grants, ENTRY as PANEL, MOST};
use reference::call::{convert, fresh};
use reference::case::{reset_record, Case, FEW_JCP, FEW_JUMPS, INSIDE, NO_STOPS};
use reference::draw::Draw;
use reference::sheets::wrong;
use reference::shortest::FOUND;
use reference::store::{ENTRY, NAME};
use reference::{restore, save, Sheet, Version};

const IMAGE: usize = 82;
const REPORT: usize = 32;
const LAST_CYCLE: u64 = (1 << 48) - 1;

/// Which function is called.
#[derive(Clone, Copy, PartialEq, Eq, Debug)]
pub enum Function {
    Call,
    Fresh,
    Convert,
    Store,
    Recall,
    Round,
    Shortest,
}

/// All that a call is given. A conversion takes the image to the report's bytes, and n is its version. Store and name are empty where
/// the function has none, and so is the bank. A round has the ROMs, schedules and logs of all its panels, and n is its T. A search has
/// the report's bytes for k.
#[derive(Clone)]
pub struct Drawn {
    pub function: Function,
    /// Whether a part of length 0 has a null pointer.
    pub null: bool,
    pub image: Vec<u8>,
    pub rom: Vec<u8>,
    pub schedule: Vec<u8>,
    pub log: usize,
    pub n: u64,
    pub runner: u64,
    pub report: usize,
    pub fill: u8,
    pub store: Vec<u8>,
    pub name: Vec<u8>,
    pub bank: Vec<u8>,
    pub sheet: Sheet,
}

/// A panel, and how many calls it still gets.
pub struct Calls {
    draw: Draw,
    image: Vec<u8>,
    rom: Vec<u8>,
    schedule: Vec<u8>,
    store: Vec<u8>,
    bank: Bank,
    sheet: Sheet,
    left: u64,
}

/// The entries of a bank, the ROMs and schedules of its panels, and how long their logs are.
#[derive(Clone, Default)]
struct Bank {
    entries: Vec<u8>,
    roms: Vec<u8>,
    schedules: Vec<u8>,
    logs: usize,
}

impl Calls {
    pub fn new(seed: u64) -> Calls {
        Calls {
            draw: Draw::new(seed.wrapping_add(1)),
            image: Vec::new(),
            rom: Vec::new(),
            schedule: Vec::new(),
            store: Vec::new(),
            bank: Bank::default(),
            sheet: Sheet::UPD546,
            left: 0,
        }
    }

    pub fn next(&mut self) -> Drawn {
        if self.left == 0 {
            self.new_panel();
        }
        self.left -= 1;
        let draw = &mut self.draw;
        let mut drawn = Drawn {
            function: match draw.below(56) {
                0 => Function::Fresh,
                1..=4 => Function::Convert,
                5..=10 => Function::Store,
                11..=15 => Function::Recall,
                16 => Function::Round,
                17..=19 => Function::Shortest,
                _ => Function::Call,
            },
            null: draw.one_in(2),
            image: self.image.clone(),
            rom: self.rom.clone(),
            schedule: self.schedule.clone(),
            log: 0,
            n: 0,
            runner: draw.of(&[0, 0, 0, 1, 1, 2, 256, 1 << 32, 1 << 63, u64::MAX]),
            report: REPORT,
            fill: draw.byte(),
            store: Vec::new(),
            name: Vec::new(),
            bank: Vec::new(),
            sheet: self.sheet,
        };
        if drawn.function == Function::Round {
            if draw.one_in(2) {
                self.bank = bank(draw, self.sheet, &self.image);
            }
            round(draw, &mut drawn, &self.bank);
            return drawn;
        }
        if drawn.function == Function::Fresh {
            drawn.image = bytes(draw, 2 * IMAGE as u64 / 3 + 60);
        }
        if draw.one_in(12) {
            drawn.report = draw.below(2 * REPORT as u64 + 1) as usize;
        }
        if draw.one_in(6) {
            damage_image(draw, &mut drawn.image);
        }
        if draw.one_in(20) {
            damage_rom(draw, &mut drawn.rom);
        }
        if draw.one_in(8) {
            damage_schedule(draw, &mut drawn.schedule);
        }
        if draw.one_in(16) {
            drawn.sheet = other_sheet(draw, drawn.sheet);
        }
        if drawn.function == Function::Convert {
            conversion(draw, &mut drawn);
            return drawn;
        }
        if matches!(drawn.function, Function::Store | Function::Recall) {
            keeping(draw, &mut drawn, &self.store);
            return drawn;
        }
        drawn.n = cycles(draw, &drawn.image);
        drawn.log = log_length(draw, drawn.n);
        if drawn.function == Function::Shortest {
            search(draw, &mut drawn);
        }
        drawn
    }

    /// What a call answered: the panel goes on from its image, also from one that was changed and is
    /// still a panel's, or that was recalled; and with its store and its bank.
    pub fn answered(
        &mut self,
        drawn: &Drawn,
        number: u8,
        mut image: Vec<u8>,
        store: Vec<u8>,
        bank: Vec<u8>,
    ) {
        match drawn.function {
            Function::Call if matches!(number, 0 | 3 | 22 | 23) => self.image = image,
            Function::Store if number == 0 => self.store = store,
            Function::Round if number == 0 && bank.len() == self.bank.entries.len() => {
                self.bank.entries = bank;
            }
            Function::Recall if number == 0 => {
                image.truncate(IMAGE);
                self.image = image;
            }
            _ => {}
        }
        // A panel that stopped for good gets few calls more.
        let stopped = drawn.function == Function::Call && matches!(number, 22 | 23);
        if stopped && self.draw.one_in(2) {
            self.left = 0;
        }
    }

    fn new_panel(&mut self) {
        let draw = &mut self.draw;
        self.left = 1 + draw.below(60);
        self.sheet = if draw.one_in(2) {
            Sheet::UPD546
        } else {
            draw.sheet()
        };
        self.rom = rom(draw, self.sheet);
        self.image = match draw.below(4) {
            0 if self.image.len() == IMAGE => self.image.clone(),
            0 | 1 => {
                let mut image = vec![0; IMAGE];
                fresh(&mut image);
                image
            }
            _ => {
                let mut state = draw.counted_state();
                state.ram.fill_with(|| draw.word());
                if draw.one_in(8) {
                    state.pc = 0x7C0 + draw.below(0x40) as u16;
                } else {
                    state.pc %= self.sheet.rom as u16;
                }
                if draw.one_in(16) {
                    state.cycle = LAST_CYCLE - draw.below(200);
                }
                if !draw.one_in(16) {
                    state = self.sheet.fitted(&state);
                }
                let mut image = vec![0; IMAGE];
                save(Version::Two, &state, &mut image, Sheet::UPD546);
                image
            }
        };
        // An image of one sheet under another.
        if restore(&self.image, self.sheet).0 != 0 {
            self.left = 1 + draw.below(4);
        }
        self.schedule = schedule(draw, cycle_of(&self.image));
        // The store of the panel before, at times under another sheet, or an empty one.
        if !draw.one_in(4) {
            let entries = draw.of(&[0, 1, 2, 3, 3, 4, 5, 16]);
            self.store = vec![0; entries * ENTRY];
        }
    }
}

/// A buffer for k, and mostly few records: each may be tried. One in two is of a new panel that asks its lines.
fn search(draw: &mut Draw, drawn: &mut Drawn) {
    drawn.report = match draw.below(8) {
        0 => draw.below(FOUND as u64) as usize,
        1 => FOUND + draw.below(9) as usize,
        _ => FOUND,
    };
    if draw.one_in(2) {
        for (byte, asks) in drawn.rom.iter_mut().zip(questions(draw)) {
            *byte = asks;
        }
        drawn.image = vec![0; IMAGE];
        fresh(&mut drawn.image);
        drawn.schedule = schedule(draw, 0);
        drawn.n = draw.below(300);
        drawn.log = log_length(draw, drawn.n);
    }
    if !draw.one_in(16) {
        let torn = drawn.schedule.len() % 10;
        drawn.schedule.truncate(400 + torn);
    }
}

fn bytes(draw: &mut Draw, below: u64) -> Vec<u8> {
    (0..draw.below(below)).map(|_| draw.byte()).collect()
}

/// The cycle number of an image; 0 where it is too short to have one.
fn cycle_of(image: &[u8]) -> u64 {
    match image.get(75..81) {
        Some(bytes) => bytes.iter().fold(0, |n, &byte| n << 8 | u64::from(byte)),
        None => 0,
    }
}

/// A sheet that isn't legal, or that of another chip.
fn other_sheet(draw: &mut Draw, sheet: Sheet) -> Sheet {
    match draw.below(4) {
        0 => draw.sheet(),
        1 => Sheet {
            rom: sheet.rom,
            ..draw.sheet()
        },
        _ => draw.of(&wrong(sheet)),
    }
}

/// Any bytes; code that lasts; and short loops of a timer and of ports laid over either.
fn rom(draw: &mut Draw, sheet: Sheet) -> Vec<u8> {
    let filter = draw.of(&[
        0,
        NO_STOPS,
        NO_STOPS | INSIDE,
        NO_STOPS | FEW_JCP | INSIDE | FEW_JUMPS,
    ]);
    let case = Case::new("").sheet(sheet).made_rom(draw.seed(), filter);
    let mut rom = case.made_rom_bytes();
    let over: &[u8] = match draw.below(8) {
        // LDZ 5, STM 3, TTM, JCP 003, CMA, OP, JCP 001.
        0 => &[0x85, 0x14, 0x83, 0x05, 0xC3, 0x10, 0x0E, 0xC1],
        // EI, STM 63, TTM, JCP 003, OE, JCP 000.
        1 => &[0x31, 0x14, 0xBF, 0x05, 0xC3, 0x44, 0xC0],
        // OCD, INC, NOP, OE, JCP 000.
        2 => &[0x1E, 0x96, 0x0D, 0x00, 0x44, 0xC0],
        // IA, OE, EI, JCP 000.
        3 => &[0x40, 0x44, 0x31, 0xC0],
        _ => &[],
    };
    for (byte, &over) in rom.iter_mut().zip(over) {
        *byte = over;
    }
    rom
}

/// An image of either version, often damaged, to a version that is one or none.
fn conversion(draw: &mut Draw, drawn: &mut Drawn) {
    let mut old = vec![0; IMAGE - 1];
    if draw.one_in(2) && convert(&drawn.image, &mut old, 1, drawn.sheet) == 0 {
        drawn.image = old;
        if draw.one_in(6) {
            damage_image(draw, &mut drawn.image);
        }
    }
    if draw.one_in(2) && drawn.image.len() == IMAGE {
        drawn.image[IMAGE - 1] = draw.upto(4);
    }
    drawn.n = draw.of(&[
        1,
        1,
        1,
        1,
        2,
        2,
        2,
        2,
        0,
        3,
        257,
        258,
        1 << 32 | 1,
        u64::MAX,
    ]);
    drawn.report = match draw.below(6) {
        0 => draw.below(IMAGE as u64) as usize,
        1 => IMAGE + draw.below(20) as usize,
        _ => draw.of(&[IMAGE - 2, IMAGE - 1, IMAGE]),
    };
}

/// Some names: with zero bytes, and a byte apart.
const NAMES: [[u8; NAME]; 5] = [
    *b"full    ",
    *b"full   1",
    [0, 0, 0, 0, 0, 0, 0, 1],
    [1, 0, 0, 0, 0, 0, 0, 0],
    [255; NAME],
];

/// The image is stored, or a buffer is lent to a recall: mostly of a sound store and a good name.
fn keeping(draw: &mut Draw, drawn: &mut Drawn, store: &[u8]) {
    drawn.store = store.to_vec();
    drawn.name = match draw.below(16) {
        0 => bytes(draw, 2 * NAME as u64),
        1 => vec![0; draw.of(&[NAME, NAME, 0, 7, 9])],
        _ => draw.of(&NAMES).to_vec(),
    };
    if drawn.function == Function::Recall {
        let length = draw.of(&[IMAGE, IMAGE, IMAGE, IMAGE + 9, IMAGE - 1, 0]);
        drawn.image = (0..length).map(|_| draw.byte()).collect();
    }
    if draw.one_in(6) {
        damage_store(draw, &mut drawn.store);
    }
}

fn damage_store(draw: &mut Draw, store: &mut Vec<u8>) {
    let length = store.len() as u64;
    let entry = |draw: &mut Draw| ENTRY * draw.below(length / ENTRY as u64) as usize;
    match draw.below(6) {
        0 => store.truncate(draw.below(length + 1) as usize),
        1 => store.extend(bytes(draw, 2 * ENTRY as u64)),
        // A name twice, or a zero name twice.
        2 if length > 0 => {
            let (one, other) = (entry(draw), entry(draw));
            store.copy_within(one..one + NAME, other);
        }
        // A zero name before used entries.
        3 if length > 0 => {
            let at = entry(draw);
            store[at..at + NAME].fill(0);
        }
        4 if length > 0 => {
            let at = entry(draw) + NAME;
            damage_part(draw, &mut store[at..at + IMAGE]);
        }
        _ if length > 0 => {
            let at = draw.below(length) as usize;
            store[at] = draw.of(&[0, 1, 128, 255]);
        }
        _ => {}
    }
}

/// Bits of an image.
fn damage_part(draw: &mut Draw, image: &mut [u8]) {
    for _ in 0..1 + draw.below(3) {
        image[draw.below(IMAGE as u64) as usize] ^= 1 << draw.below(8);
    }
}

/// A grant up to which a run returns soon.
const SOON: u64 = 3_000;

/// A bank of 0 to 17 panels: of the image that there is, fresh ones and any, some of them damaged; with ROMs and schedules that are sound,
/// cut short or of no bytes.
fn bank(draw: &mut Draw, sheet: Sheet, image: &[u8]) -> Bank {
    let panels = match draw.below(8) {
        0 => MOST + 1,
        1 | 2 => MOST,
        _ => draw.below(MOST as u64) as usize,
    };
    let mut bank = Bank::default();
    let roms: Vec<Vec<u8>> = (0..3).map(|_| rom(draw, sheet)).collect();
    for _ in 0..panels {
        let mut image = match draw.below(3) {
            0 if image.len() == IMAGE => image.to_vec(),
            1 => {
                let mut state = draw.counted_state();
                state.pc %= sheet.rom as u16;
                state.cycle = draw.of(&[0, 100, LAST_CYCLE - 20]);
                let mut image = vec![0; IMAGE];
                save(
                    Version::Two,
                    &sheet.fitted(&state),
                    &mut image,
                    Sheet::UPD546,
                );
                image
            }
            _ => {
                let mut image = vec![0; IMAGE];
                fresh(&mut image);
                image
            }
        };
        if draw.one_in(6) {
            damage_image(draw, &mut image);
            image.resize(IMAGE, 0);
        }
        let mut rom = roms[draw.below(3) as usize].clone();
        let mut lines = schedule(draw, cycle_of(&image));
        // As many as fit beside the others.
        lines.truncate(2_000);
        match draw.below(12) {
            0 => rom.clear(),
            1 => damage_rom(draw, &mut rom),
            2 | 3 => damage_schedule(draw, &mut lines),
            4 => rom[draw.below(4.min(sheet.rom)) as usize] = 0x1C,
            _ => {}
        }
        rom.truncate(2_048);
        lines.truncate(2_100);
        let log = draw.of(&[0, 7, 8, 40, 400, 1_600]);
        let wish = match draw.below(6) {
            0 => 0,
            1 => u64::MAX,
            2 => (1 << 48) + draw.below(9),
            3 => draw.below(2_000),
            _ => draw.below(100),
        };
        bank.entries.extend(&image);
        for number in [wish, rom.len() as u64, lines.len() as u64, log as u64] {
            bank.entries.extend(number.to_be_bytes());
        }
        bank.entries.extend((0..33).map(|_| draw.byte()));
        bank.roms.extend(rom);
        bank.schedules.extend(lines);
        bank.logs += log;
    }
    bank
}

/// A round of a bank, mostly a sound one. Each grant is small, or so large that the run is refused at once.
fn round(draw: &mut Draw, drawn: &mut Drawn, bank: &Bank) {
    drawn.bank = bank.entries.clone();
    drawn.rom = bank.roms.clone();
    drawn.schedule = bank.schedules.clone();
    drawn.log = bank.logs;
    let entries = bank.entries.len() / PANEL;
    drawn.n = match draw.below(8) {
        0 => 0,
        1 => 1,
        2 => (entries as u64).saturating_sub(1),
        3 | 4 => u64::MAX - draw.below(2),
        _ => draw.below(SOON),
    };
    match draw.below(12) {
        // A length of a kind, as long as 64 bits may say.
        0 if entries > 0 => {
            let at = PANEL * draw.below(entries as u64) as usize + 90 + 8 * draw.below(3) as usize;
            let length = draw.of(&[u64::MAX, 1 << 63, 1 << 32, 3_000]);
            drawn.bank[at..at + 8].copy_from_slice(&length.to_be_bytes());
        }
        1 => drop(drawn.rom.pop()),
        2 => drop(drawn.schedule.pop()),
        3 => drawn.log = drawn.log.saturating_sub(1),
        4 => drawn.log += draw.below(50) as usize,
        5 => {
            let cut = 1 + draw.below(PANEL as u64 - 1) as usize;
            drawn.bank.truncate(drawn.bank.len().saturating_sub(cut));
        }
        6 => drawn.bank.extend(bytes(draw, PANEL as u64)),
        7 => drawn.sheet = other_sheet(draw, drawn.sheet),
        _ => {}
    }
    let wish = |entry: &[u8]| entry[82..90].iter().fold(0, |n, &b| n << 8 | u64::from(b));
    let wishes: Vec<u64> = drawn.bank.chunks_exact(PANEL).map(wish).collect();
    let soon = |&grant: &u64| grant <= SOON || grant > LAST_CYCLE;
    if !grants(drawn.n, &wishes).iter().all(soon) {
        drawn.n = draw.below(SOON);
    }
}

/// Records around a cycle and after it, as many as there may be at times; in one of two schedules some with RES
/// high.
fn schedule(draw: &mut Draw, around: u64) -> Vec<u8> {
    let records = match draw.below(40) {
        0 => 4_096,
        1..=9 => 0,
        10..=19 => draw.below(60),
        _ => draw.below(8),
    };
    let gap = draw.of(&[1, 2, 20, 200]);
    let mut cycle = around.saturating_sub(draw.below(2 * gap));
    let resets = draw.one_in(2);
    let mut schedule = Vec::new();
    for _ in 0..records {
        if cycle > LAST_CYCLE {
            break;
        }
        let res = u8::from(resets && draw.one_in(3));
        let (ab, cd, int) = (draw.byte(), draw.byte(), draw.upto(1));
        schedule.extend(reset_record(cycle, ab, cd, int, res));
        cycle += 1 + draw.below(gap);
    }
    schedule
}

fn damage_image(draw: &mut Draw, image: &mut Vec<u8>) {
    let length = image.len() as u64;
    match draw.below(8) {
        0 => image.resize(draw.of(&[0, 80, 81, 82, 83, 2 * IMAGE]), 0),
        1 => *image = bytes(draw, 150),
        2 if length > 2 => image[draw.below(3) as usize] = draw.byte(),
        3 if length > 4 => image[3 + draw.below(2) as usize] = draw.upto(3),
        4 if length > 0 => {
            let at = draw.below(length) as usize;
            image[at] = draw.of(&[0, 1, 3, 4, 7, 8, 15, 16, 63, 64, 128, 255]);
        }
        _ => {
            // Bits, mostly past mark and version.
            for _ in 0..1 + draw.below(3) {
                let at = 5 + draw.below(77) as usize;
                if let Some(byte) = image.get_mut(at) {
                    *byte ^= 1 << draw.below(8);
                }
            }
        }
    }
    // A cycle number near the limit.
    if draw.one_in(12) && restore(image, Sheet::UPD546).0 == 0 {
        let cycle = LAST_CYCLE - draw.below(60);
        image[75..81].copy_from_slice(&cycle.to_be_bytes()[2..]);
    }
}

fn damage_rom(draw: &mut Draw, rom: &mut Vec<u8>) {
    let length = rom.len();
    match draw.below(3) {
        0 => rom.resize(
            draw.of(&[0, 1, length - 1, length + 1, length + 48, 2_000]),
            0,
        ),
        1 => rom.truncate(draw.below(length as u64) as usize),
        _ => {
            for _ in 0..5 {
                rom[draw.below(length as u64) as usize] = draw.byte();
            }
        }
    }
}

fn damage_schedule(draw: &mut Draw, schedule: &mut Vec<u8>) {
    let length = schedule.len();
    let record = |draw: &mut Draw| 10 * draw.below(length as u64 / 10) as usize;
    match draw.below(8) {
        0 => schedule.truncate(length.saturating_sub(1 + draw.below(12) as usize)),
        1 => schedule.extend(bytes(draw, 30)),
        2 if draw.one_in(4) => schedule.resize(draw.of(&[40_960, 40_961, 40_970, 41_000]), 0),
        3 if length > 0 => {
            let at = record(draw) + 8;
            schedule[at] = draw.byte();
        }
        4 if length > 0 => {
            let at = record(draw) + 9;
            schedule[at] = draw.upto(2);
        }
        5 if length > 10 => {
            let (one, other) = (record(draw), record(draw));
            for place in 0..10 {
                schedule.swap(one + place, other + place);
            }
        }
        6 if length > 10 => {
            let (one, other) = (record(draw), record(draw));
            schedule.copy_within(one..one + 10, other);
        }
        _ if length > 0 => {
            let at = draw.below(length as u64) as usize;
            schedule[at] ^= 1 << draw.below(8);
        }
        _ => {}
    }
}

/// Few cycles as a rule. Many only where that is refused, so that the call returns soon: at 2^48 - 1
/// itself just where it is near.
fn cycles(draw: &mut Draw, image: &[u8]) -> u64 {
    let left = LAST_CYCLE - cycle_of(image);
    match draw.below(40) {
        0 => left + 1 + draw.below(2),
        1 => draw.of(&[
            1 << 48,
            1 << 63,
            u64::MAX,
            u64::MAX - LAST_CYCLE,
            (1 << 48) + 5,
        ]),
        2 if left < 300 => left,
        3 => draw.below(3_000),
        4..=7 => 0,
        8..=19 => draw.below(300),
        _ => draw.below(20),
    }
}

/// As long as n cycles may need, or shorter, or none.
fn log_length(draw: &mut Draw, n: u64) -> usize {
    let whole = if n < 3_000 { 16 * n } else { 64 };
    match draw.below(8) {
        0 => 0,
        1 => draw.below(40) as usize,
        2 => draw.below(whole + 1) as usize,
        3 => (whole + draw.below(40)) as usize,
        _ => whole as usize,
    }
}

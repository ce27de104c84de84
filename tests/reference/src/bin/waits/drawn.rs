//! Logs and carried parts that are drawn: sound ones, damaged ones, and logs cut into parts.

use reference::draw::Draw;
use reference::log::{records, Record};
use reference::waiting::{Carried, Ground, Landing, LANDINGS, LARGEST};

use crate::case::{cut, log, Case, Source};

const LAST_CYCLE: u64 = (1 << 48) - 1;

/// How many of each kind.
const SOUND: usize = 420;
const GIVEN: usize = 260;
const DAMAGED: usize = 300;
const DAMAGED_GIVEN: usize = 90;
const SEVERAL: usize = 120;
const CUT: usize = 90;

pub fn cases() -> Vec<Case> {
    let mut draw = Draw::new(41);
    let mut cases = Vec::new();
    for place in 0..SOUND {
        let log = sound_log(&mut draw, 0);
        cases.push(Case::new(format!("drawn {place}"), Source::Empty, log));
    }
    for place in 0..GIVEN {
        let carried = sound_carried(&mut draw);
        let log = sound_log(&mut draw, carried.last);
        let name = format!("drawn and carried {place}");
        cases.push(Case::new(name, Source::Given(carried), log));
    }
    for place in 0..DAMAGED {
        let (log, ground) = damaged_log(&mut draw, 0);
        let name = format!("drawn and damaged {place}");
        cases.push(Case::new(name, Source::Empty, log).alone(ground));
    }
    for place in 0..DAMAGED_GIVEN {
        let carried = sound_carried(&mut draw);
        let (log, ground) = damaged_log(&mut draw, carried.last);
        let name = format!("drawn, carried and damaged {place}");
        cases.push(Case::new(name, Source::Given(carried), log).alone(ground));
    }
    for place in 0..SEVERAL {
        let carried = damaged_carried(&mut draw);
        let log = some_log(&mut draw, carried.last);
        let name = format!("damaged in several ways {place}");
        cases.push(Case::new(name, Source::Given(carried), log).refused(41));
    }
    for place in 0..CUT {
        cases.extend(drawn_cut(&mut draw, place));
    }
    cases
}

/// A number of 64 bits below a limit.
fn wide(draw: &mut Draw, limit: u64) -> u64 {
    (u64::from(draw.next()) << 32 | u64::from(draw.next())) % limit
}

/// How far the next record is; often 0.
fn gap(draw: &mut Draw, breadth: u32) -> u64 {
    match draw.below(3) {
        0 => 0,
        1 => draw.below(4),
        _ => wide(draw, 1 << breadth),
    }
}

/// Often a write to the lamps: all of them, one turned over, or any value.
fn record(draw: &mut Draw, cycle: u64, lamps: u8) -> Record {
    if draw.one_in(3) {
        let port = draw.of(&[2, 3, 4, 6, 7, 8]);
        let value = draw.upto(if port == 8 { 7 } else { 15 });
        return Record { cycle, port, value };
    }
    let value = match draw.below(6) {
        0 => 0,
        1 => 15,
        2 => lamps,
        3 | 4 => lamps ^ 1 << draw.below(4),
        _ => draw.upto(15),
    };
    Record {
        cycle,
        port: 5,
        value,
    }
}

/// A sound log of a few records, none before this cycle.
fn sound_log(draw: &mut Draw, from: u64) -> Vec<u8> {
    let breadth = draw.of(&[1, 4, 9, 20, 44]);
    let count = match draw.below(8) {
        0 => 1 + draw.below(30),
        _ => 1 + draw.below(9),
    };
    let mut cycle = from;
    let mut lamps = 0;
    let mut log = Vec::new();
    for _ in 0..count {
        cycle = (cycle + gap(draw, breadth)).min(LAST_CYCLE);
        let record = record(draw, cycle, lamps);
        if record.port == 5 {
            lamps = record.value;
        }
        log.extend(record.bytes());
    }
    log
}

/// Sound or not, or empty.
fn some_log(draw: &mut Draw, from: u64) -> Vec<u8> {
    match draw.below(3) {
        0 => Vec::new(),
        1 => sound_log(draw, from.min(LAST_CYCLE)),
        _ => (0..draw.below(20)).map(|_| draw.byte()).collect(),
    }
}

/// A sound log with one fault, and which.
fn damaged_log(draw: &mut Draw, from: u64) -> (Vec<u8>, Ground) {
    let sound = sound_log(draw, from + 1);
    if draw.one_in(5) {
        let cut = 1 + draw.below(7) as usize;
        return (sound[..sound.len() - cut].to_vec(), Ground::Length);
    }
    let mut records: Vec<(u64, u8, u8)> = records(&sound)
        .map(|record| (record.cycle, record.port, record.value))
        .collect();
    let place = draw.below(records.len() as u64) as usize;
    let before = match place {
        0 => from,
        _ => records[place - 1].0,
    };
    let (cycle, port, value) = &mut records[place];
    let ground = match draw.below(4) {
        0 => {
            *port = draw.of(&[10, 1, 9, 16, 21, 255]);
            *value &= 7;
            Ground::Port
        }
        1 => {
            *value = 16 + draw.upto(239);
            Ground::Value
        }
        2 => {
            (*port, *value) = (8, 8 + draw.upto(7));
            Ground::Value
        }
        _ if before > 0 => {
            *cycle = match draw.below(2) {
                0 => before - 1,
                _ => wide(draw, before),
            };
            Ground::Cycle
        }
        _ => {
            *port = 1;
            Ground::Port
        }
    };
    (log(&records), ground)
}

/// A figure, often small, often close to 2^60.
fn figure(draw: &mut Draw) -> u64 {
    match draw.below(6) {
        0 => 0,
        1 => LARGEST,
        2 => LARGEST - draw.below(300),
        3 => wide(draw, LARGEST),
        _ => draw.below(1_000),
    }
}

/// Something that is carried on, with a last cycle of 47 bits at most.
fn sound_carried(draw: &mut Draw) -> Carried {
    let last = match draw.below(4) {
        0 => 0,
        1 => wide(draw, 1 << 47),
        _ => draw.below(2_000),
    };
    let lamps = draw.upto(15);
    let mut carried = Carried {
        landings: [Landing::default(); LANDINGS],
        lamps,
        last,
    };
    for (place, landing) in carried.landings.iter_mut().enumerate() {
        landing.closed = figure(draw);
        landing.cycles = figure(draw);
        landing.longest = figure(draw);
        if lamps >> place & 1 == 1 {
            landing.open = 1;
            landing.start = match draw.below(3) {
                0 => 0,
                1 => last,
                _ => wide(draw, last + 1),
            };
        }
    }
    carried
}

/// One to four faults.
fn damaged_carried(draw: &mut Draw) -> Carried {
    let mut carried = sound_carried(draw);
    for fault in 0..1 + draw.below(4) {
        let place = draw.below(LANDINGS as u64) as usize;
        let lit = carried.lamps >> place & 1;
        let landing = &mut carried.landings[place];
        let above = LARGEST + 1 + wide(draw, u64::MAX - LARGEST);
        match (fault + draw.below(6)) % 6 {
            0 => landing.closed = above,
            1 => landing.cycles = above,
            2 => landing.longest = above,
            3 => carried.lamps |= 16 << draw.below(4),
            4 => landing.open = draw.of(&[1 - lit, 2, 255]),
            _ => landing.start = carried.last + 1 + wide(draw, u64::MAX - carried.last),
        }
    }
    carried
}

/// A log and its parts, from zeros or from something carried.
fn drawn_cut(draw: &mut Draw, place: usize) -> Vec<Case> {
    let (from, last) = if draw.one_in(5) {
        let carried = small(sound_carried(draw));
        (Source::Given(carried), carried.last)
    } else {
        (Source::Empty, 0)
    };
    let log = sound_log(draw, last);
    let mut left = log.len() / 8;
    let mut parts = Vec::new();
    while left > 0 {
        let records = draw.below(left as u64 + 1).min(9) as usize;
        parts.push(records);
        left -= records;
    }
    parts.push(0);
    cut(&format!("cut {place}"), from, &log, &parts)
}

/// With figures that stay below 2^60.
fn small(mut carried: Carried) -> Carried {
    for landing in &mut carried.landings {
        landing.closed %= 1_000;
        landing.cycles %= LARGEST / 2;
        landing.longest %= LARGEST / 2;
    }
    carried
}

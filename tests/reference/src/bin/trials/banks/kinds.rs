//! The groups of rounds, by kind.

use reference::bank::{grants, MOST};
use reference::case::{record, Case, FEW_JCP, FEW_JUMPS, INSIDE, NO_STOPS};
use reference::draw::Draw;
use reference::kinds::Kind;
use reference::sheets::{legal, wrong, HALF, LEAST, PAGE};
use reference::{Sheet, State};

use super::steps::{Form, Group, Maker, Part};

const LAST_CYCLE: u64 = (1 << 48) - 1;

/// A grant up to which a run returns soon.
const SOON: u64 = 2_000;

pub const KINDS: [Kind<Group>; 8] = [
    ("numbers", numbers),
    ("drawn", drawn),
    ("grants", grants_of_loops),
    ("places", places),
    ("lengths", lengths),
    ("torn", torn),
    ("bytes", bytes),
    ("sheets", sheets),
];

fn part(state: &State, wish: u64, rom: &[u8], schedule: &[u8], log: usize) -> Part {
    Part {
        state: state.clone(),
        wish,
        rom: rom.to_vec(),
        schedule: schedule.to_vec(),
        log,
        said: None,
        damage: None,
    }
}

/// A ROM of so many bytes that begins with these.
fn rom_of(sheet: Sheet, bytes: &[u8]) -> Vec<u8> {
    let mut rom = vec![0; sheet.rom as usize];
    rom[..bytes.len()].copy_from_slice(bytes);
    rom
}

/// A panel that writes a value to port E over and over: LI, OE, JCP 001.
fn writer(sheet: Sheet, value: u8, wish: u64, log: usize) -> Part {
    let rom = rom_of(sheet, &[0x90 | value & 15, 0x44, 0xC1]);
    part(&State::fresh(), wish, &rom, &[], log)
}

/// A panel whose ROM is a JCP to itself: the cycles of its run are its grant.
fn looping(wish: u64) -> Part {
    part(&State::fresh(), wish, &[0xC0], &[], 0)
}

fn logs_of(parts: &[Part]) -> usize {
    parts.iter().map(|part| part.log).sum()
}

/// So many writers, each with another value and another log.
fn writers(sheet: Sheet, count: usize, wish: u64) -> Vec<Part> {
    (0..count)
        .map(|k| writer(sheet, k as u8, wish, 40 + 3 * k))
        .collect()
}

/// Single rounds: each number, and each order of two. 63 is for the bytes of C alone.
fn numbers() -> Vec<Group> {
    let bad = Sheet { levels: 4, ..PAGE };
    let mut groups = Vec::new();
    for form in Form::BOTH {
        for panels in [0, 1, 2, 15, 16, 17, 18, 20] {
            for (short, words) in [
                (None, "whole buffers"),
                (Some(0), "a byte less of ROMs"),
                (Some(1), "a byte less of schedules"),
                (Some(2), "a byte less of logs"),
            ] {
                for (torn, behind) in [(0, ""), (1, ", torn"), (146, ", nearly one more")] {
                    if torn > 0 && form == Form::Values || short.is_some() && panels == 0 {
                        continue;
                    }
                    for sheet in [PAGE, bad] {
                        let due = match () {
                            _ if sheet == bad => 71,
                            _ if panels > MOST => 61,
                            _ if short.is_some() => 62,
                            _ if torn > 0 => 63,
                            _ => 0,
                        };
                        let name = format!("{panels} panels, {words}{behind}, {due}");
                        let mut parts = writers(PAGE, panels, 9);
                        for (place, part) in parts.iter_mut().enumerate() {
                            part.schedule = record(place as u64, 0x10, 0, 1).to_vec();
                        }
                        let mut maker = Maker::new(name, form);
                        maker.sheet(sheet);
                        let (count, logs) = (parts.len(), logs_of(&parts));
                        if torn > 0 {
                            parts.push(writer(PAGE, 1, 9, 1));
                        }
                        maker.bank(&parts);
                        if torn > 0 {
                            maker.length(count * form.entry() + torn);
                        }
                        let less = |kind: usize| usize::from(short == Some(kind));
                        maker.roms_length(64 * count - less(0));
                        maker.schedules_length(10 * count - less(1));
                        maker.round(7 * count as u64 + 3, logs - less(2));
                        groups.push(maker.answers(&[due]));
                    }
                }
            }
        }
    }
    groups
}

/// T is so small, or so large, that each grant is small, or its run is refused.
fn returns_soon(t: u64, wishes: &[u64]) -> bool {
    let soon = |&grant: &u64| grant <= SOON || grant > LAST_CYCLE;
    grants(t, wishes).iter().all(soon)
}

/// A ROM: any bytes, code that lasts, and waits on the timer.
fn drawn_rom(draw: &mut Draw, sheet: Sheet) -> Vec<u8> {
    let filter = draw.of(&[
        0,
        NO_STOPS,
        NO_STOPS | INSIDE,
        NO_STOPS | FEW_JCP | INSIDE | FEW_JUMPS,
    ]);
    let mut rom = Case::new("")
        .sheet(sheet)
        .made_rom(draw.seed(), filter)
        .made_rom_bytes();
    let over: &[u8] = match draw.below(6) {
        // LDZ 5, STM, TTM, JCP 003, CMA, OP, JCP 001.
        0 => &[0x85, 0x14, 0x83, 0x05, 0xC3, 0x10, 0x0E, 0xC1],
        // EI, STM 63, TTM, JCP 003, OE, JCP 000.
        1 => &[0x31, 0x14, 0xBF, 0x05, 0xC3, 0x44, 0xC0],
        // OCD, INC, NOP, OE, JCP 000.
        2 => &[0x1E, 0x96, 0x0D, 0x00, 0x44, 0xC0],
        _ => &[],
    };
    for (byte, &over) in rom.iter_mut().zip(over) {
        *byte = over;
    }
    rom
}

/// Records from around a cycle on, up to thirty; at times damaged.
fn drawn_schedule(draw: &mut Draw, around: u64) -> Vec<u8> {
    let mut schedule = Vec::new();
    let mut cycle = around.saturating_sub(draw.below(4));
    let gap = draw.of(&[2, 10, 60]);
    for _ in 0..draw.of(&[0, 0, 1, 3, 8, 30]) {
        if cycle > LAST_CYCLE {
            break;
        }
        let res = u8::from(draw.one_in(6));
        let (ab, cd, int) = (draw.byte(), draw.byte(), draw.upto(1));
        schedule.extend(reference::case::reset_record(cycle, ab, cd, int, res));
        cycle += 1 + draw.below(gap);
    }
    let length = schedule.len();
    match draw.below(24) {
        0 => schedule.truncate(length.saturating_sub(1 + draw.below(9) as usize)),
        1 if length > 0 => schedule[8 + 10 * draw.below(length as u64 / 10) as usize] = 2,
        2 if length > 0 => schedule.extend_from_within(..10),
        _ => {}
    }
    schedule
}

/// A panel of any kind: sound, about to stop, or refused.
fn drawn_part(draw: &mut Draw, sheet: Sheet, form: Form) -> Part {
    let mut state = match draw.below(4) {
        0 => State::fresh(),
        _ => draw.counted_state(),
    };
    state.ram.fill_with(|| draw.word());
    if !draw.one_in(10) {
        state.pc %= sheet.rom as u16;
    }
    if draw.one_in(12) {
        state.cycle = LAST_CYCLE - draw.below(40);
    }
    if !draw.one_in(16) {
        state = sheet.fitted(&state);
    }
    let mut rom = drawn_rom(draw, sheet);
    match draw.below(20) {
        0 => rom.truncate(draw.below(sheet.rom) as usize),
        1 => rom.push(0),
        2 => rom.clear(),
        3 => rom[draw.below(4.min(sheet.rom)) as usize] = 0x45,
        _ => {}
    }
    let schedule = drawn_schedule(draw, state.cycle);
    if form == Form::Values && draw.one_in(12) {
        state.owed = 4 + draw.upto(9);
    }
    let wish = match draw.below(8) {
        0 => 0,
        1 => u64::MAX,
        2 => LAST_CYCLE + 1 + draw.below(9),
        3 => draw.below(SOON),
        _ => draw.below(120),
    };
    let log = draw.of(&[0, 7, 8, 15, 60, 400, 1_920]);
    let damaged = form == Form::Bytes && draw.one_in(12);
    Part {
        damage: damaged.then(|| (draw.of(&[0, 3, 4, 13, 16, 17, 20, 81]), draw.byte())),
        ..part(&state, wish, &rom, &schedule, log)
    }
}

/// Drawn banks of 0 to 17 panels, some rounds of each.
fn drawn() -> Vec<Group> {
    let mut draw = Draw::new(9);
    let mut groups = Vec::new();
    for form in Form::BOTH {
        for k in 0..504 {
            let sheet = match k % 8 {
                0 | 1 => Sheet::UPD546,
                2 => draw.of(&[HALF, LEAST]),
                3 => draw.sheet(),
                _ => PAGE,
            };
            let panels = k % 18;
            let parts: Vec<Part> = (0..panels)
                .map(|_| drawn_part(&mut draw, sheet, form))
                .collect();
            let wishes: Vec<u64> = parts.iter().map(|part| part.wish).collect();
            let mut maker = Maker::new(format!("bank {k} of {panels} panels"), form);
            maker.sheet(sheet);
            maker.bank(&parts);
            let m = panels as u64;
            let ends = [
                0,
                1,
                m.saturating_sub(1),
                u64::MAX,
                draw.below(SOON),
                draw.below(SOON),
                m * draw.below(80) + draw.below(m + 1),
            ];
            for t in ends {
                let t = if returns_soon(t, &wishes) {
                    t
                } else {
                    2 * m + 1
                };
                maker.round(t, logs_of(&parts) + draw.of(&[0, 0, 30]));
            }
            groups.push(maker.answers(&[if panels > MOST { 61 } else { 0 }]));
        }
    }
    groups
}

/// Loops of 1 to 16 panels: every T up to three cycles each and more, with wishes all over.
fn grants_of_loops() -> Vec<Group> {
    let patterns: [&[u64]; 9] = [
        &[u64::MAX],
        &[1],
        &[0, 2],
        &[5, 0, 1],
        &[1, 9],
        &[9, 1],
        &[0, 0, 0, u64::MAX],
        &[3, 2, 1, 0],
        &[2, 40, 1, 7, 0],
    ];
    let mut groups = Vec::new();
    for form in Form::BOTH {
        for m in 1..=MOST {
            let mut maker = Maker::new(format!("grants of {m} panels"), form);
            maker.sheet(LEAST);
            for pattern in patterns {
                let wishes: Vec<u64> = pattern.iter().copied().cycle().take(m).collect();
                let parts: Vec<Part> = wishes.iter().map(|&wish| looping(wish)).collect();
                maker.bank(&parts);
                let few = 0..=3 * m as u64 + 4;
                for t in few.chain([100, 1_000, u64::MAX - 1, u64::MAX]) {
                    if returns_soon(t, &wishes) {
                        maker.round(t, 0);
                    }
                }
            }
            groups.push(maker.answers(&[0]));
        }
    }
    groups
}

/// A panel that ends with this number, on a chip of one page.
fn ending(number: u8, form: Form) -> Option<Part> {
    let sound = writer(PAGE, 9, 10, 80);
    let with = |change: &dyn Fn(&mut Part)| {
        let mut part = sound.clone();
        change(&mut part);
        Some(part)
    };
    let records = [record(4, 0, 0, 1), record(4, 0, 0, 1)].concat();
    match number {
        0 => with(&|_| {}),
        2 => with(&|part| part.state.cycle = LAST_CYCLE - 9),
        3 => with(&|part| part.log = 15),
        11 => with(&|part| part.schedule = records[..9].to_vec()),
        12 => with(&|part| part.schedule = vec![0; 40_970]),
        13 => with(&|part| part.schedule = record(4, 0, 0, 2).to_vec()),
        14 => with(&|part| part.schedule = records.clone()),
        21 => with(&|part| part.rom.truncate(63)),
        22 => with(&|part| part.state.pc = 0x7FF),
        23 => with(&|part| part.rom[2] = 0x1C),
        32 | 33 if form == Form::Values => None,
        32 => with(&|part| part.damage = Some((2, b'4'))),
        33 => with(&|part| part.damage = Some((4, 1))),
        _ if form == Form::Values => with(&|part| part.state.owed = 4),
        _ => with(&|part| part.damage = Some((17, 4))),
    }
}

/// A panel that stops or is refused, in every place of the row, among others that write; then two of them.
fn places() -> Vec<Group> {
    let mut groups = Vec::new();
    for form in Form::BOTH {
        for number in [2, 3, 11, 12, 13, 14, 21, 22, 23, 32, 33, 34] {
            let Some(odd) = ending(number, form) else {
                continue;
            };
            let mut maker = Maker::new(format!("{number} in every place"), form);
            maker.sheet(PAGE);
            for place in 0..MOST {
                let mut parts = writers(PAGE, MOST, 12);
                for (place, part) in parts.iter_mut().enumerate() {
                    part.schedule = record(place as u64, 0x10, 0, 1).to_vec();
                }
                parts[place] = odd.clone();
                maker.bank(&parts);
                for t in [180, 160, 1_000] {
                    maker.round(t, logs_of(&parts) + 5);
                }
            }
            groups.push(maker.panels_have(&[0, number]).answers(&[0]));
        }
        let two = [3, 21, 22, 23, 34];
        for one in two {
            let mut maker = Maker::new(format!("{one} and another"), form);
            maker.sheet(PAGE);
            for other in two {
                for place in [0, 1, 7, 14] {
                    let mut parts = writers(PAGE, MOST, 12);
                    parts[place] = ending(one, form).expect("both forms have it");
                    parts[place + 1] = ending(other, form).expect("both forms have it");
                    maker.bank(&parts);
                    maker.round(180, logs_of(&parts));
                }
            }
            groups.push(maker.panels_have(&two).answers(&[0]));
        }
    }
    groups
}

/// Lengths that a buffer just has, and just hasn't; that sum past 2^64; and parts of no bytes in every place.
fn lengths() -> Vec<Group> {
    let mut groups = Vec::new();
    for form in Form::BOTH {
        for panels in [1, 2, 5, 16] {
            let mut parts = writers(PAGE, panels, 9);
            for part in &mut parts {
                part.schedule = record(3, 0x10, 0, 1).to_vec();
            }
            let (roms, schedules, logs) = (64 * panels, 10 * panels, logs_of(&parts));
            let mut maker = Maker::new(format!("buffers of {panels} panels"), form);
            maker.sheet(PAGE);
            maker.bank(&parts);
            for (rom, schedule, log) in [
                (0, 0, 0),
                (1, 0, 0),
                (0, 1, 0),
                (0, 0, 1),
                (1, 1, 1),
                (roms, 0, 0),
                (0, schedules, 0),
                (0, 0, logs),
            ] {
                maker.roms_length(roms - rom);
                maker.schedules_length(schedules - schedule);
                maker.round(9 * panels as u64, logs - log);
            }
            maker.roms_length(roms);
            maker.schedules_length(schedules);
            maker.round(9 * panels as u64, logs + 60);
            groups.push(maker.answers(&[0, 62]));
            groups.push(far_lengths(form, &parts));
        }
        let mut maker = Maker::new("a part of no bytes in every place", form);
        maker.sheet(PAGE);
        for kind in 0..3 {
            for place in 0..MOST {
                let mut parts = writers(PAGE, MOST, 9);
                for (k, part) in parts.iter_mut().enumerate() {
                    part.schedule = record(k as u64, 0x10, 0, 1).to_vec();
                }
                match kind {
                    0 => parts[place].rom.clear(),
                    1 => parts[place].schedule.clear(),
                    _ => parts[place].log = 0,
                }
                maker.bank(&parts);
                maker.round(160, logs_of(&parts));
            }
        }
        groups.push(maker.panels_have(&[0, 3, 21]).answers(&[0]));
    }
    groups
}

/// One length, or all of a kind, as long as 64 bits may say: also so that the sum is a small number in 64 bits.
fn far_lengths(form: Form, parts: &[Part]) -> Group {
    let mut maker = Maker::new(format!("long lengths of {} panels", parts.len()), form);
    maker.sheet(PAGE);
    let logs = logs_of(parts);
    let whole = [64 * parts.len(), 10 * parts.len(), logs].map(|length| length as u64);
    for kind in 0..3 {
        for place in 0..parts.len() {
            let others = whole[kind] - parts[place].lengths()[kind];
            // With these the sum is 2^64, and 2^64 and one more: 0 and 1 in 64 bits.
            let wrapping = [0, 1].map(|more| (u64::MAX - others).checked_add(1 + more));
            let wrapping = wrapping.into_iter().flatten();
            for length in wrapping.chain([u64::MAX, 1 << 63, 1 << 32]) {
                let mut parts = parts.to_vec();
                let mut said = parts[place].lengths();
                said[kind] = length;
                parts[place].said = Some(said);
                maker.bank(&parts);
                maker.round(9, logs);
            }
        }
        let mut parts = parts.to_vec();
        // Together 2^64 or a little more.
        let Some(each) = (u64::MAX / parts.len() as u64).checked_add(1) else {
            continue;
        };
        for part in &mut parts {
            let mut said = part.lengths();
            said[kind] = each;
            part.said = Some(said);
        }
        maker.bank(&parts);
        maker.round(9, logs);
    }
    maker.answers(&[62])
}

/// A bank of every length up to four panels, and around sixteen.
fn torn() -> Vec<Group> {
    let form = Form::Bytes;
    let mut groups = Vec::new();
    for (words, panels, from, to) in [
        ("none", 4, 0, 147),
        ("one", 4, 147, 294),
        ("two", 4, 294, 441),
        ("three", 4, 441, 588),
        ("sixteen", 18, 16 * 147 - 9, 16 * 147 + 9),
        ("seventeen", 18, 17 * 147 - 9, 17 * 147 + 9),
    ] {
        let parts = writers(PAGE, panels, 9);
        let mut maker = Maker::new(format!("a bank torn behind {words}"), form);
        maker.sheet(PAGE);
        maker.bank(&parts);
        for length in from..=to {
            maker.length(length);
            maker.round(30, logs_of(&parts));
        }
        let due: &[u8] = match words {
            "seventeen" => &[61, 63],
            _ => &[0, 63],
        };
        groups.push(maker.answers(due));
    }
    groups
}

/// Every byte of the middle one of three panels, at every value.
fn bytes() -> Vec<Group> {
    let mut groups = Vec::new();
    for form in Form::BOTH {
        let mut parts = writers(PAGE, 3, 12);
        for part in &mut parts {
            part.schedule = record(3, 0x10, 0, 1).to_vec();
        }
        let logs = logs_of(&parts);
        for place in 0..form.entry() {
            let mut maker = Maker::new(format!("byte {place} of a panel"), form);
            maker.sheet(PAGE);
            maker.bank(&parts);
            maker.keep();
            for value in 0..=255 {
                maker.bring_back();
                maker.byte(form.entry() + place, value);
                maker.round(30, logs);
            }
            groups.push(maker.answers_among(&[0, 62]));
        }
    }
    groups
}

/// Banks under every kind of sheet: what a panel holds, and how long its ROM is, is judged for each; and sheets that are none.
fn sheets() -> Vec<Group> {
    let mut held = State::fresh();
    held.ram[0x20] = 8;
    held.stack[1] = 5;
    let mut groups = Vec::new();
    for form in Form::BOTH {
        for (k, sheet) in legal().into_iter().chain([Sheet::UPD546]).enumerate() {
            let rom = vec![0xC0; sheet.rom as usize];
            let parts = [
                part(&State::fresh(), 9, &rom, &[], 8),
                part(&held, 9, &rom, &[], 8),
                part(&State::fresh(), 9, &rom[1..], &[], 8),
                part(&State::fresh(), 9, &[&rom[..], &[0]].concat(), &[], 8),
                part(&State::fresh(), 9, &rom, &[], 8),
            ];
            let mut maker = Maker::new(format!("sheet {k}"), form);
            maker.sheet(sheet);
            maker.bank(&parts);
            maker.round(40, 40);
            for wrong in wrong(sheet) {
                maker.sheet(wrong);
                maker.round(40, 40);
                maker.round(40, 39);
            }
            groups.push(maker.panels_have(&[0, 21]).answers(&[0, 71]));
        }
    }
    groups
}

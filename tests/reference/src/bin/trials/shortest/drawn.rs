//! Drawn panels, of the uPD546 and of smaller chips.

use reference::asking::questions;
use reference::case::{lines, Case, NO_STOPS};
use reference::draw::Draw;
use reference::sheets::{legal, wrong, HALF, PAGE};
use reference::{Sheet, State};

use super::group::{Call, Group};
use super::kinds::{high, misses};

/// So many cycles show what a panel does.
const LONG: u64 = 600;

/// Records around the panel's cycle and after it; in one of two schedules some with RES high.
fn records(draw: &mut Draw, from: u64) -> Vec<u8> {
    let gap = draw.of(&[1, 4, 20, 60]);
    let resets = draw.one_in(2);
    let mut cycle = from.saturating_sub(draw.below(3 * gap));
    let mut records = Vec::new();
    for _ in 0..draw.of(&[1, 3, 6, 12, 30]) {
        let res = u8::from(resets && draw.one_in(4));
        records.push((cycle, draw.byte(), draw.byte(), draw.upto(1), res));
        cycle += 1 + draw.below(gap);
    }
    lines(&records)
}

/// A panel that asks its lines, on a ROM of any bytes; one in four begins fresh.
fn panel(draw: &mut Draw, sheet: Sheet) -> Call {
    let made = Case::new("")
        .sheet(sheet)
        .made_rom(draw.seed(), draw.of(&[0, NO_STOPS]));
    let mut rom = made.made_rom_bytes();
    for (byte, asks) in rom.iter_mut().zip(questions(draw)) {
        *byte = asks;
    }
    let mut state = State::fresh();
    if !draw.one_in(4) {
        state = draw.counted_state();
        state.ram.fill_with(|| draw.word());
        state.pc %= sheet.rom.min(64) as u16;
        state = sheet.fitted(&state);
    }
    let schedule = records(draw, state.cycle);
    let call = Call::new(&[], schedule, LONG);
    Call {
        rom,
        state,
        sheet,
        ..call
    }
}

/// A panel with n at the cycle of its stop, one below and one above, with beginnings of its schedule, and with a log that is short, exact and
/// longer.
fn calls(draw: &mut Draw, panel: &Call) -> Vec<Call> {
    let (done, records) = (panel.done(), panel.records());
    let mut calls = vec![panel.clone()];
    for n in [
        0,
        1,
        done.saturating_sub(1),
        done,
        done + 1,
        done + 2,
        draw.below(LONG),
        draw.below(LONG),
    ] {
        calls.push(panel.cycles(n));
    }
    for _ in 0..4 {
        let n = done + 1 + draw.below(60);
        let log = 16 * n as usize;
        let length = draw.of(&[0, log / 2, log.saturating_sub(1), log + 1, log + 100]);
        calls.push(panel.cycles(n).with(|call| call.log = length));
    }
    for k in (0..=records).rev().step_by(1 + records / 10) {
        calls.push(panel.with(|call| call.schedule.truncate(10 * k)));
    }
    calls
}

/// A drawn panel that stops by some of its records, as a rule: one in eight may end in any way.
fn stopping(draw: &mut Draw, sheet: Sheet) -> Call {
    loop {
        let drawn = panel(draw, sheet);
        let number = drawn.trial(drawn.records());
        if draw.one_in(8) || number != 0 && number != drawn.trial(0) {
            return drawn;
        }
    }
}

pub fn drawn() -> Vec<Group> {
    let mut draw = Draw::new(12);
    let mut groups = Vec::new();
    for k in 0..150 {
        let sheet = match k % 5 {
            0 => draw.of(&[HALF, PAGE]),
            _ => Sheet::UPD546,
        };
        let panel = stopping(&mut draw, sheet);
        let calls = calls(&mut draw, &panel);
        groups.push(Group::new(format!("drawn panel {k}"), calls, &[22, 23, 81, 82]).some());
    }
    groups
}

/// Each legal sheet with panels of its own, and with one that has what the chip hasn't; with ROMs of other lengths; and sheets that are none.
pub fn sheets() -> Vec<Group> {
    let mut draw = Draw::new(1_112);
    let mut groups = Vec::new();
    for sheet in legal() {
        let Sheet { rom, rows, levels } = sheet;
        let mut calls = Vec::new();
        for _ in 0..6 {
            let panel = panel(&mut draw, sheet);
            calls.push(panel.clone());
            calls.push(panel.cycles(panel.done() + 1));
            calls.push(panel.with(|call| call.state = high()));
            calls.push(panel.with(|call| call.rom.push(0)));
            calls.push(panel.with(|call| call.log -= 1));
            for wrong in wrong(sheet) {
                calls.push(panel.with(|call| call.sheet = wrong));
            }
        }
        let name = format!("panels of {rom}, {rows}, {levels}");
        let due: &[u8] = if misses(sheet) {
            &[21, 22, 23, 34, 71, 81, 82]
        } else {
            &[21, 22, 23, 71, 81, 82]
        };
        groups.push(Group::new(name, calls, due).some());
    }
    groups
}

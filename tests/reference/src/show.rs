//! A run told in full, for a person who looks for the reason of a difference: the ROM as a listing, the
//! schedule, the state before and after by field, the answer and the log.

use std::collections::{BTreeMap, BTreeSet};
use std::fmt::Display;
use std::ops::Range;

use crate::instructions::FORMS;
use crate::lent::Lent;
use crate::machine::{following, State};
use crate::mnemonics::instruction;
use crate::numbers::{FINISHED, RECORD_BYTES, RECORD_CYCLE};
use crate::runners::{Answer, Observer, Runner};
use crate::schedule::{cycle_of, lines_of, refusal, RECORD};
use crate::sheet::Sheet;
use crate::trace::log_text;

/// A ROM with more bytes than this that aren't 0 is listed where the run went, and nowhere else.
const FEW: usize = 256;

/// Records shown of a schedule that no run went through.
const FIRST: usize = 10;

/// The addresses of a PC.
const ADDRESSES: usize = 0x800;

impl Lent {
    /// Runs it, and tells all of it.
    pub fn told(self) -> String {
        let mut begun = Begun::default();
        let (answer, log) = self.clone().run_observed(&mut begun);
        let runner = match self.runner {
            Runner::Plain => "plain",
            Runner::Skipping => "timer-skipping",
        };
        let sheet = match self.sheet {
            Sheet::UPD546 => String::new(),
            Sheet { rom, rows, levels } => {
                format!("; sheet: ROM of {rom}, rows {rows:05b}, levels {levels}")
            }
        };
        [
            format!("runner: {runner}, {} cycles{sheet}\n", self.n),
            told_rom(&self.rom, &begun, self.state.pc, answer.state.pc),
            told_schedule(&self.schedule, &self.state, &answer),
            told_state(&self.state, &answer.state),
            told_answer(&answer),
            format!(
                "\nlog of {} bytes\n{}",
                log.len(),
                log_text(&log[..answer.written])
            ),
        ]
        .concat()
    }
}

/// How often the instruction at each address was begun, and how often of these it skipped; 0 for one
/// that was only passed over.
#[derive(Default)]
struct Begun(BTreeMap<u16, (u64, u64)>);

impl Observer for &mut Begun {
    fn begun(&mut self, at: u16, _code: u8, passed: Option<u16>, times: u64) {
        let counts = self.0.entry(at).or_default();
        counts.0 += times;
        if let Some(passed) = passed {
            counts.1 += times;
            self.0.entry(passed).or_default();
        }
    }
}

/// A line of the listing: an instruction, or NOPs one after the other.
struct Line {
    first: u16,
    last: u16,
    bytes: String,
    text: String,
    begun: u64,
    skips: u64,
    note: &'static str,
}

/// The listing: the instructions begun and those passed over, where the run starts and ends, and the
/// bytes that aren't 0, if they are few.
fn told_rom(rom: &[u8], begun: &Begun, start: u16, end: u16) -> String {
    let mut text = format!("\nROM of {} bytes\n", rom.len());
    text.push_str("  address   bytes  instruction  begun  skips\n");
    for line in joined(lines(rom, begun, start, end)) {
        let address = if line.first == line.last {
            format!("{:03X}", line.first)
        } else {
            format!("{:03X}..{:03X}", line.first, line.last)
        };
        let count = |count: u64| match count {
            0 => String::new(),
            count => count.to_string(),
        };
        let line = format!(
            "  {address:<8}  {:<5}  {:<11}  {:>5}  {:>5}  {}",
            line.bytes,
            line.text,
            count(line.begun),
            count(line.skips),
            line.note
        );
        text.push_str(line.trim_end());
        text.push('\n');
    }
    text
}

fn lines(rom: &[u8], begun: &Begun, start: u16, end: u16) -> Vec<Line> {
    listed(rom, begun, start, end)
        .into_iter()
        .map(|at| {
            let (times, skips) = begun.0.get(&at).copied().unwrap_or_default();
            let second = second_of(rom, at);
            let note = match (at == start, at == end) {
                (true, true) => "starts and ends here",
                (true, false) => "starts here",
                (false, true) => "ends here",
                (false, false) => "",
            };
            let (bytes, text) = match (rom.get(usize::from(at)), second) {
                (None, _) => (String::new(), String::from("no byte")),
                (Some(&code), None) => (format!("{code:02X}"), instruction(at, code, None)),
                (Some(&code), Some(second)) => (
                    format!("{code:02X} {second:02X}"),
                    instruction(at, code, Some(second)),
                ),
            };
            Line {
                first: at,
                last: at,
                bytes,
                text,
                begun: times,
                skips,
                note,
            }
        })
        .collect()
}

/// The second byte of the instruction at an address, where it has one and the ROM too.
fn second_of(rom: &[u8], at: u16) -> Option<u8> {
    let code = *rom.get(usize::from(at))?;
    if FORMS[usize::from(code)].bytes == 1 {
        return None;
    }
    rom.get(usize::from(following(at))).copied()
}

/// The addresses of the listing.
fn listed(rom: &[u8], begun: &Begun, start: u16, end: u16) -> BTreeSet<u16> {
    let mut listed: BTreeSet<u16> = begun.0.keys().copied().chain([start, end]).collect();
    if rom.iter().filter(|&&byte| byte != 0).count() > FEW {
        return listed;
    }
    let mut seen: BTreeSet<u16> = BTreeSet::new();
    for &at in &listed {
        see(rom, at, &mut seen);
    }
    for (at, &byte) in (0..).zip(rom.iter().take(ADDRESSES)) {
        if byte != 0 && !seen.contains(&at) {
            see(rom, at, &mut seen);
            listed.insert(at);
        }
    }
    listed
}

/// The bytes of an instruction need no line of their own.
fn see(rom: &[u8], at: u16, seen: &mut BTreeSet<u16>) {
    seen.insert(at);
    if second_of(rom, at).is_some() {
        seen.insert(following(at));
    }
}

/// NOPs at addresses one after the other become one line.
fn joined(lines: Vec<Line>) -> Vec<Line> {
    let is_plain_nop = |line: &Line| line.text == "NOP" && line.note.is_empty();
    let mut joined: Vec<Line> = Vec::new();
    for line in lines {
        match joined.last_mut() {
            Some(before)
                if is_plain_nop(before) && is_plain_nop(&line) && before.last + 1 == line.first =>
            {
                before.last = line.last;
                before.begun += line.begun;
            }
            _ => joined.push(line),
        }
    }
    joined
}

/// The schedule: of a run, the records that it could see; of a refused one, what refuses it, or the
/// first records.
fn told_schedule(schedule: &[u8], state: &State, answer: &Answer) -> String {
    let records: Vec<&[u8]> = schedule.chunks(RECORD).collect();
    let shown = if answer.refused {
        near_fault(schedule, answer.number)
    } else {
        let after = |cycle: u64| records.partition_point(|record| cycle_of(record) <= cycle);
        after(state.cycle).saturating_sub(1)..after(answer.state.cycle)
    };
    let shown = shown.start.min(records.len())..shown.end.min(records.len());
    let mut text = format!("\nschedule of {} bytes\n", schedule.len());
    if shown.start > 0 {
        text.push_str(&format!("  records before these: {}\n", shown.start));
    }
    for place in shown.clone() {
        text.push_str(&format!("  {place}: {}\n", told_record(records[place])));
    }
    if shown.end < records.len() {
        let left = records.len() - shown.end;
        text.push_str(&format!("  records after these: {left}\n"));
    }
    text
}

/// The record that is refused by 13 or 14, with the one before; else the first ones.
fn near_fault(schedule: &[u8], number: u8) -> Range<usize> {
    if !matches!(number, RECORD_BYTES | RECORD_CYCLE) {
        return 0..FIRST;
    }
    let sound = |records: &usize| refusal(&schedule[..records * RECORD]) == FINISHED;
    let good = (1..=schedule.len() / RECORD).take_while(sound).count();
    good.saturating_sub(1)..good + 1
}

fn told_record(record: &[u8]) -> String {
    if record.len() < RECORD {
        return format!("{} bytes, {record:02X?}", record.len());
    }
    let lines = lines_of(record);
    let [a, b, c, d] = lines.ports;
    let mut text = format!(
        "cycle {} A={a:X} B={b:X} C={c:X} D={d:X} INT={}",
        cycle_of(record),
        lines.int
    );
    if lines.res != 0 {
        text.push_str(&format!(" RES={}", lines.res));
    }
    text
}

/// The state by field; a star where it changed. PC, stack, ports and RAM are hexadecimal. A row of
/// the RAM is told as it was before, then its words that changed.
fn told_state(before: &State, after: &State) -> String {
    let mut text = String::from("\nstate: field = before -> after\n");
    for ((name, old), (_, new)) in fields(before).into_iter().zip(fields(after)) {
        text.push_str(&told_field(&name, old, new));
    }
    for (place, (old, new)) in before.ram.iter().zip(after.ram).enumerate() {
        if place % 16 == 0 {
            let row: Vec<String> = before.ram[place..place + 16]
                .iter()
                .map(|word| format!("{word:X}"))
                .collect();
            text.push_str(&format!(
                "  RAM row {} = {}\n",
                row_of(place),
                row.join(" ")
            ));
        }
        if *old != new {
            let (old, new) = (format!("{old:X}"), format!("{new:X}"));
            text.push_str(&told_field(&word_name(place), old, new));
        }
    }
    text
}

fn told_field(name: &str, old: String, new: String) -> String {
    if old == new {
        format!("  {name} = {old}\n")
    } else {
        format!("* {name} = {old} -> {new}\n")
    }
}

/// All of a state but its RAM.
fn fields(state: &State) -> Vec<(String, String)> {
    let State {
        pc,
        stack: [newest, second, third],
        acc,
        carry,
        saved,
        dph,
        dpl,
        int,
        inte,
        tm,
        level,
        mark,
        owed,
        register,
        counter,
        ports,
        ram: _,
        cycle,
        count,
    } = state;
    let kind = match mark {
        0 => "other",
        1 => "LDI",
        2 => "EI",
        3 => "STM",
        4 => "LI",
        _ => "none",
    };
    let field = |name: &str, value: &dyn Display| (String::from(name), value.to_string());
    let mut fields = vec![
        field("cycle", cycle),
        field("PC", &format_args!("{pc:03X}")),
        field(
            "stack",
            &format_args!("{newest:03X} {second:03X} {third:03X}"),
        ),
        field("Acc", acc),
        field("C", carry),
        field("C'", saved),
        field("DPH", dph),
        field("DPL", dpl),
        field("INT", int),
        field("INTE", inte),
        field("TM", tm),
        field("level", level),
        field("mark", &format_args!("{mark} ({kind})")),
        field("owed", owed),
        field("register", register),
        field("counter", counter),
        field("count", count),
    ];
    for (port, latch) in ('C'..='I').zip(ports) {
        fields.push((format!("port {port}"), format!("{latch:X}")));
    }
    fields
}

/// "Rows 0 to 4 and 7 exist, 16 words each".
fn row_of(place: usize) -> usize {
    [0, 1, 2, 3, 4, 7][place / 16]
}

/// A word by its address, and its name where it has one.
fn word_name(place: usize) -> String {
    let (row, column) = (row_of(place), place % 16);
    let name = match (row, column) {
        (7, 9..) => [" flag", " Z", " W", " S", " R", " Y", " X"][column - 9],
        _ => "",
    };
    format!("RAM {row}{column:X}{name}")
}

fn told_answer(answer: &Answer) -> String {
    let kind = match (answer.number, answer.refused) {
        (FINISHED, _) => "finished",
        (_, true) => "a refusal",
        (_, false) => "a stop",
    };
    format!(
        "\nanswer\n  number = {} ({kind})\n  cycles = {}\n  clocks = {}\n  begun = {}\n  written = {}\n  steps = {}\n",
        answer.number, answer.cycles, answer.clocks, answer.begun, answer.written, answer.steps
    )
}

#[cfg(test)]
mod tests {
    use super::*;
    use crate::case::{record, schedule, Case};

    /// The part of what is told that begins with a line of these words.
    fn part(case: Case, title: &str) -> Vec<String> {
        case.lent()
            .told()
            .lines()
            .skip_while(|line| !line.starts_with(title))
            .take_while(|line| !line.is_empty())
            .map(String::from)
            .collect()
    }

    /// LI 3; CI 3 passes over OCD; TAZ, OE and a code that is none; at 100 a JCP that is never reached.
    fn case() -> Case {
        Case::new("told")
            .rom(0, &[0x93, 0x17, 0x03, 0x1E, 0xA5, 0x42, 0x44, 0x1C])
            .rom(0x100, &[0xC5])
            .n(20)
    }

    #[test]
    fn the_listing_has_what_was_reached_and_what_is_not_0() {
        let lines = [
            "ROM of 2000 bytes",
            "  address   bytes  instruction  begun  skips",
            "  000       93     LI  3            1         starts here",
            "  001       17 03  CI  03           1      1",
            "  003       1E A5  OCD A5",
            "  005       42     TAZ              1",
            "  006       44     OE               1",
            "  007       1C     byte 1C                    ends here",
            "  100       C5     JCP 105",
        ];
        assert_eq!(part(case(), "ROM"), lines);
    }

    #[test]
    fn another_sheet_is_told() {
        let told = |case: Case| case.lent().told().lines().next().unwrap().to_owned();
        assert_eq!(told(case()), "runner: plain, 20 cycles");
        let (rom, rows, levels) = (1_000, 3, 2);
        let line = "runner: plain, 20 cycles; sheet: ROM of 1000, rows 00011, levels 2";
        assert_eq!(told(case().sheet(Sheet { rom, rows, levels })), line);
    }

    #[test]
    fn a_full_rom_is_listed_where_the_run_went() {
        // JCP 002, OCD at the end of field 1, and JMP 7D0.
        let full = Case::new("full")
            .rom(0, &[0x33; 2_000])
            .rom(0x1C2, &[0x1E])
            .rom(0x1C0, &[0xC2])
            .rom(0x1C3, &[0x5A, 0xA7, 0xD0])
            .with(|state| state.pc = 0x1C0)
            .n(20);
        let lines = [
            "ROM of 2000 bytes",
            "  address   bytes  instruction  begun  skips",
            "  1C0       C2     JCP 1C2          1         starts here",
            "  1C2       1E 5A  OCD 5A           1",
            "  1C4       A7 D0  JMP 7D0          1",
            "  7D0              no byte                    ends here",
        ];
        assert_eq!(part(full, "ROM"), lines);
    }

    #[test]
    fn nops_are_one_line_and_a_jump_counts_each_instruction() {
        // STM 0 and NOPs, then TTM and JCP 03E until TM is set.
        let wait = Case::new("wait")
            .rom(0, &[0x14, 0x80])
            .rom(0x3E, &[0x05, 0xFE])
            .n(66);
        let lines = [
            "ROM of 2000 bytes",
            "  address   bytes  instruction  begun  skips",
            "  000       14 80  STM 80           1         starts here",
            "  002..03D  00     NOP             60",
            "  03E       05     TTM              2         ends here",
            "  03F       FE     JCP 03E          2",
        ];
        assert_eq!(part(wait.clone(), "ROM"), lines);
        assert_eq!(part(wait.skipping(), "ROM"), lines);
    }

    #[test]
    fn the_state_is_told_by_field() {
        let told = part(case(), "state");
        for line in [
            "* cycle = 0 -> 9",
            "* PC = 000 -> 007",
            "  stack = 000 000 000",
            "* Acc = 0 -> 3",
            "  C = 0",
            "  level = 1",
            "* port E = 0 -> 3",
            "  RAM row 7 = 0 0 0 0 0 0 0 0 0 0 0 0 0 0 0 0",
            "* RAM 7A Z = 0 -> 3",
        ] {
            assert!(told.contains(&String::from(line)), "{line}: {told:#?}");
        }
        assert_eq!(told.iter().filter(|line| line.starts_with('*')).count(), 5);
    }

    #[test]
    fn every_field_has_its_name() {
        let state = State {
            pc: 0x123,
            stack: [0x7FF, 2, 3],
            acc: 4,
            carry: 5,
            saved: 6,
            dph: 7,
            dpl: 8,
            int: 9,
            inte: 10,
            tm: 11,
            level: 12,
            mark: 3,
            owed: 13,
            register: 14,
            counter: 15,
            ports: [1, 2, 3, 4, 5, 6, 15],
            ram: [0; 96],
            cycle: 16,
            count: 17,
        };
        let told: Vec<String> = fields(&state)
            .into_iter()
            .map(|(name, value)| format!("{name}={value}"))
            .collect();
        assert_eq!(
            told.join(", "),
            "cycle=16, PC=123, stack=7FF 002 003, Acc=4, C=5, C'=6, DPH=7, DPL=8, INT=9, INTE=10, \
             TM=11, level=12, mark=3 (STM), owed=13, register=14, counter=15, count=17, port C=1, \
             port D=2, port E=3, port F=4, port G=5, port H=6, port I=F"
        );
    }

    #[test]
    fn words_have_their_addresses() {
        assert_eq!(word_name(0x00), "RAM 00");
        assert_eq!(word_name(0x4F), "RAM 4F");
        assert_eq!(word_name(0x50), "RAM 70");
        assert_eq!(word_name(0x59), "RAM 79 flag");
        assert_eq!(word_name(0x5F), "RAM 7F X");
    }

    #[test]
    fn the_answer_and_the_log_are_told() {
        let lines = [
            "answer",
            "  number = 23 (a stop)",
            "  cycles = 9",
            "  clocks = 36",
            "  begun = 4",
            "  written = 8",
            "  steps = 9",
        ];
        assert_eq!(part(case(), "answer"), lines);
        let lines = ["log of 64 bytes", "cycle port value", "7 E 3"];
        assert_eq!(part(case(), "log"), lines);
    }

    #[test]
    fn a_run_shows_the_records_that_it_could_see() {
        let records = [
            (0, 0x12, 0x34, 1),
            (3, 0, 0, 0),
            (5, 0xFF, 0, 1),
            (9, 0, 0, 1),
        ];
        let seen = case().schedule(&records).with(|state| state.cycle = 4);
        let lines = [
            "schedule of 40 bytes",
            "  records before these: 1",
            "  1: cycle 3 A=0 B=0 C=0 D=0 INT=0",
            "  2: cycle 5 A=F B=F C=0 D=0 INT=1",
            "  records after these: 1",
        ];
        assert_eq!(part(seen.n(4), "schedule"), lines);
    }

    #[test]
    fn a_refused_run_shows_the_record_that_refuses_it() {
        let mut bytes = schedule(&[(0, 0, 0, 1), (7, 0, 0, 1), (7, 0xA5, 0, 0), (8, 0, 0, 1)]);
        let refused = |bytes: &[u8]| {
            let case = case().made_schedule(bytes.len() as u16, 0, 0, 0);
            part(case.schedule_bytes(0, bytes), "schedule")
        };
        let lines = [
            "schedule of 40 bytes",
            "  records before these: 1",
            "  1: cycle 7 A=0 B=0 C=0 D=0 INT=1",
            "  2: cycle 7 A=A B=5 C=0 D=0 INT=0",
            "  records after these: 1",
        ];
        assert_eq!(refused(&bytes), lines);
        bytes[9] = 3;
        let lines = [
            "schedule of 40 bytes",
            "  0: cycle 0 A=0 B=0 C=0 D=0 INT=1 RES=3",
            "  records after these: 3",
        ];
        assert_eq!(refused(&bytes), lines);
        let torn = [record(2, 0, 0, 1), vec![1, 2]].concat();
        let lines = [
            "schedule of 12 bytes",
            "  0: cycle 2 A=0 B=0 C=0 D=0 INT=1",
            "  1: 2 bytes, [01, 02]",
        ];
        assert_eq!(refused(&torn), lines);
    }
}

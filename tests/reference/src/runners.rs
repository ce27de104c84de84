//! "Two runners": the plain one and the timer-skipping one.

use crate::instructions::{execute, in_page, FORMS};
use crate::log::{self, Log};
use crate::machine::{following, mark, State, LAST_CYCLE, RESET};
use crate::numbers::{ABOVE_ROM, CYCLE_LIMIT, FIELD, FINISHED, ROM_LENGTH};
use crate::schedule::{self, Cursor};
use crate::sheet::{Chip, Sheet};

/// Codes that the runner looks for.
const TTM: u8 = 0x05;
const RTS: u8 = 0x49;
const JCP: u8 = 0xC0;

/// "A run also gives clock cycles, four per machine cycle".
const CLOCKS: u64 = 4;

/// Which of the two runners.
#[derive(Clone, Copy, PartialEq, Eq, Debug)]
pub enum Runner {
    Plain,
    Skipping,
}

/// What a run answers.
#[derive(Clone, PartialEq, Eq, Debug)]
pub struct Answer {
    /// 0 if it finished, else the number of the stop or refusal.
    pub number: u8,
    pub refused: bool,
    pub state: State,
    /// Machine cycles of this run.
    pub cycles: u64,
    /// Clock cycles of this run.
    pub clocks: u64,
    /// Instructions begun.
    pub begun: u64,
    /// Log bytes written.
    pub written: usize,
    pub steps: u64,
}

/// How often an instruction with each code was begun without, and with, a skip taken.
#[derive(Clone, PartialEq, Eq, Debug)]
pub struct Coverage {
    pub plain: [u64; 256],
    pub skipped: [u64; 256],
}

impl Coverage {
    pub fn new() -> Coverage {
        Coverage {
            plain: [0; 256],
            skipped: [0; 256],
        }
    }
}

impl Default for Coverage {
    fn default() -> Coverage {
        Coverage::new()
    }
}

/// Is told of each instruction begun: its address, its code, the address of the one that it passed
/// over, and how often it was begun so.
pub trait Observer {
    fn begun(&mut self, at: u16, code: u8, passed: Option<u16>, times: u64);
}

/// Counts nothing and costs nothing.
pub(crate) struct Nobody;

impl Observer for Nobody {
    #[inline(always)]
    fn begun(&mut self, _at: u16, _code: u8, _passed: Option<u16>, _times: u64) {}
}

impl Observer for &mut Coverage {
    fn begun(&mut self, _at: u16, code: u8, passed: Option<u16>, times: u64) {
        let counts = if passed.is_some() {
            &mut self.skipped
        } else {
            &mut self.plain
        };
        counts[usize::from(code)] += times;
    }
}

/// Runs n machine cycles, or up to a stop. A refused run changes nothing and answers the state
/// given.
pub fn run(
    runner: Runner,
    rom: &[u8],
    schedule: &[u8],
    state: &State,
    log: &mut [u8],
    n: u64,
    sheet: Sheet,
) -> Answer {
    run_observed(runner, rom, schedule, state, log, n, sheet, Nobody)
}

/// The same, telling an observer of the instructions begun: a `&mut Coverage` counts them.
#[allow(clippy::too_many_arguments)]
pub fn run_observed<O: Observer>(
    runner: Runner,
    rom: &[u8],
    schedule: &[u8],
    state: &State,
    log: &mut [u8],
    n: u64,
    sheet: Sheet,
    observer: O,
) -> Answer {
    match admit(rom, schedule, state, n, sheet) {
        Ok(chip) => Run {
            rom,
            chip,
            schedule: Cursor::new(schedule),
            quiet: 0,
            state: state.clone(),
            log: Log::new(log),
            begun: 0,
            observer,
        }
        .go_by(runner, n),
        Err(number) => Answer {
            number,
            refused: true,
            state: state.clone(),
            cycles: 0,
            clocks: 0,
            begun: 0,
            written: 0,
            steps: 0,
        },
    }
}

/// "A run checks 21, 12, 11, 13/14, 34, 2"; R-11: 71 is "before all else".
pub(crate) fn admit(
    rom: &[u8],
    schedule: &[u8],
    state: &State,
    n: u64,
    sheet: Sheet,
) -> Result<Chip, u8> {
    let chip = sheet.chip()?;
    if rom.len() != usize::from(chip.rom) {
        return Err(ROM_LENGTH);
    }
    match schedule::refusal(schedule) {
        FINISHED => {}
        number => return Err(number),
    }
    if !state.is_valid(&chip) {
        return Err(FIELD);
    }
    if n > LAST_CYCLE - state.cycle {
        return Err(CYCLE_LIMIT);
    }
    Ok(chip)
}

/// A run that isn't refused, on its way.
struct Run<'a, O> {
    /// As long as the chip's.
    rom: &'a [u8],
    chip: Chip,
    schedule: Cursor<'a>,
    /// Up to this cycle the machine has seen the lines, RES is low and its count is 0.
    quiet: u64,
    state: State,
    log: Log<'a>,
    begun: u64,
    observer: O,
}

impl<O: Observer> Run<'_, O> {
    fn go_by(self, runner: Runner, n: u64) -> Answer {
        match runner {
            Runner::Plain => self.go::<false>(n),
            Runner::Skipping => self.go::<true>(n),
        }
    }

    /// A function for each runner, since one with both loops is slower.
    #[inline(never)]
    fn go<const SKIPPING: bool>(mut self, n: u64) -> Answer {
        let start = self.state.cycle;
        let end = start + n;
        // Cycles that took no step of their own.
        let mut spared = 0;
        let mut number = FINISHED;
        while self.state.cycle < end {
            let jump = if SKIPPING {
                self.jump_length(end - self.state.cycle)
            } else {
                0
            };
            if jump >= 2 {
                self.jump(jump);
                spared += jump - 1;
            } else if let Err(stop) = self.cycle() {
                number = stop;
                break;
            }
        }
        let cycles = self.state.cycle - start;
        Answer {
            number,
            refused: false,
            state: self.state,
            cycles,
            clocks: CLOCKS * cycles,
            begun: self.begun,
            written: self.log.written(),
            steps: cycles - spared,
        }
    }

    /// "One machine cycle n". With a stop "the cycle isn't begun, and the answer stands at its
    /// boundary".
    #[inline(always)]
    fn cycle(&mut self) -> Result<(), u8> {
        if self.state.cycle >= self.quiet {
            return self.watched_cycle();
        }
        if self.state.owed > 0 {
            // c.
            self.state.owed -= 1;
        } else if self.state.accepts() {
            // a.
            self.state.accept(&self.chip);
        } else {
            // c.
            if let Err(stop) = self.instruction() {
                self.state.owed = 0;
                return Err(stop);
            }
        }
        self.end_cycle();
        Ok(())
    }

    /// Step d, "Then the cycle number rises by 1."
    #[inline(always)]
    fn end_cycle(&mut self) {
        let state = &mut self.state;
        if state.register != 0 && state.mark != mark::STM {
            state.step_timer();
        }
        state.cycle += 1;
    }

    /// A cycle at which lines are new, RES is high or its count isn't 0; from one record to the next the lines are
    /// those that the machine has seen, and step b changes nothing. "RES is looked at before step a". With a stop
    /// RES isn't counted either.
    #[cold]
    #[inline(never)]
    fn watched_cycle(&mut self) -> Result<(), u8> {
        self.schedule = self.schedule.at(self.state.cycle);
        let lines = *self.schedule.lines();
        let count = self.state.counted(lines.res);
        if count == RESET {
            self.reset_cycle(lines.int)?;
        } else {
            self.ordinary_cycle(lines.int)?;
        }
        self.state.count = count;
        self.quiet = if count == 0 { self.schedule.next() } else { 0 };
        Ok(())
    }

    /// Steps a to d.
    fn ordinary_cycle(&mut self, line: u8) -> Result<(), u8> {
        if self.state.owed > 0 {
            // b and c.
            self.state.see(line);
            self.state.owed -= 1;
        } else if self.state.accepts() {
            // a, then b: a fall counts also in an acceptance cycle.
            self.state.accept(&self.chip);
            self.state.see(line);
        } else {
            // b and c.
            let (level, int) = (self.state.level, self.state.int);
            self.state.see(line);
            if let Err(stop) = self.instruction() {
                (self.state.owed, self.state.level, self.state.int) = (0, level, int);
                return Err(stop);
            }
        }
        self.end_cycle();
        Ok(())
    }

    /// "lines are taken first, but nothing is accepted or executed and the timer doesn't step"; "On reaching 4 it
    /// appends one record with port 0, value 0, and stop 3 covers it".
    fn reset_cycle(&mut self, line: u8) -> Result<(), u8> {
        if self.state.count < RESET {
            self.log.room(1)?;
            self.log.append(self.state.cycle, log::RESET, 0);
        }
        self.state.see(line);
        self.state.reset();
        self.state.cycle += 1;
        Ok(())
    }

    /// "one instruction has all its effects and owed becomes its cycles less 1." A stop leaves
    /// all but owed as it was: "22, 23 and 3, in that order but 23 before a second byte".
    #[inline(always)]
    fn instruction(&mut self) -> Result<(), u8> {
        let at = self.state.pc;
        let code = self.fetch(at)?;
        let form = FORMS[usize::from(code)];
        let mut after = following(at);
        let mut second = 0;
        if form.bytes == 2 {
            second = self.fetch(after)?;
            after = following(after);
        }

        // Where a skip would begin; above the ROM the instruction must not skip.
        if after >= self.chip.rom && self.would_skip(code, second, after) {
            return Err(ABOVE_ROM);
        }

        self.state.owed = form.owed;
        let skip = execute(
            &mut self.state,
            code,
            second,
            after,
            self.schedule.lines(),
            &mut self.log,
            &self.chip,
        )?;
        let passed = skip.then_some(self.state.pc);
        if skip {
            self.skip();
        }
        self.begun += 1;
        self.observer.begun(at, code, passed, 1);
        Ok(())
    }

    /// "A skip passes over one instruction and costs its bytes (1 or 2) in further cycles; only its
    /// first byte is read." That byte lies in the ROM.
    #[inline(always)]
    fn skip(&mut self) {
        let code = self.rom[usize::from(self.state.pc)];
        let bytes = FORMS[usize::from(code)].bytes;
        for _ in 0..bytes {
            self.state.pc = following(self.state.pc);
        }
        self.state.owed += bytes;
    }

    /// Whether the instruction at PC would skip in this cycle what stands after it: tried on a copy.
    /// One that writes to the log never skips, so the copy needs no log. The skip of RTS begins
    /// elsewhere, and `execute` looks there.
    #[cold]
    fn would_skip(&self, code: u8, second: u8, after: u16) -> bool {
        let mut copy = self.state.clone();
        let mut no_log = Log::new(&mut []);
        let (lines, chip) = (self.schedule.lines(), &self.chip);
        let done = execute(&mut copy, code, second, after, lines, &mut no_log, chip);
        code != RTS && done == Ok(true)
    }

    /// Stop 22: "a byte above 7CF is needed", which reads as the sheet's last address.
    #[inline(always)]
    fn fetch(&self, address: u16) -> Result<u8, u8> {
        match self.rom.get(usize::from(address)) {
            Some(&byte) => Ok(byte),
            None => Err(ABOVE_ROM),
        }
    }

    /// j, how far the timer-skipping runner may jump; under 2 it steps one cycle.
    fn jump_length(&mut self, left: u64) -> u64 {
        let state = &self.state;
        if state.owed != 0
            || state.register == 0
            || state.tm == 1
            || state.inte & state.int != 0
            || self.fetch(state.pc) != Ok(TTM)
        {
            return 0;
        }
        self.wait_length(left)
    }

    /// The same where "the byte at PC is TTM" and the timer is running.
    #[cold]
    fn wait_length(&mut self, left: u64) -> u64 {
        if self.jcp_back().is_none() {
            return 0;
        }
        let state = &self.state;
        let here = self.schedule.at(state.cycle);
        // "The timer jump needs RES low and a count of 0."
        if here.lines().int != state.level || here.lines().res != 0 || state.count != 0 {
            return 0;
        }
        // Lines whose INT is the level seen change nothing in step b.
        self.schedule = here;
        self.quiet = self.schedule.next();
        // "the largest even number at most r and the cycles left, with no schedule record in the
        // j - 1 cycles after the present one".
        let no_record = self.schedule.next() - state.cycle;
        state.ticks_left().min(left).min(no_record) & !1
    }

    /// The code of "a JCP back to it" that "the next address holds".
    fn jcp_back(&self) -> Option<u8> {
        let next = following(self.state.pc);
        let back = self.fetch(next).ok()?;
        (back >= JCP && in_page(next, back & 63) == self.state.pc).then_some(back)
    }

    /// j cycles in one step: TTM and JCP in turn, a timer step in each.
    fn jump(&mut self, j: u64) {
        if let Some(back) = self.jcp_back() {
            let pc = self.state.pc;
            self.observer.begun(pc, TTM, None, j / 2);
            self.observer.begun(following(pc), back, None, j / 2);
        }
        self.state.step_timer_by(j);
        self.state.mark = mark::OTHER;
        self.state.cycle += j;
        self.begun += j;
    }
}

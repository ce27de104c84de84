//! Every wait that a timer can have, r from 1 to 4,032 ticks left, by the board's call on the timer-skipping runner: to the TTM that
//! skips, and r + 2 cycles on. Request R-13 says in how few steps.

use reference::call::{call, REPORT};
use reference::case::{record, Case};
use reference::kinds::Count;
use reference::{run, save, Runner, Sheet, State, Version};

use crate::stream::{pattern, Chain, Of, Stream};
use crate::Item;

const TTM: u8 = 0x05;
const JCP: u8 = 0xC0;

/// The ticks of the longest wait, and how many waits a line is of.
const LONGEST: u64 = 4_032;
const LINE: usize = 63;

/// "takes at most 3 steps"
const MOST: u64 = 3;

/// Under which sheet, and at which address, TTM stands: the first one, the last but one of a page, the last but one of the ROM, and
/// those of a ROM of two bytes.
const PLACES: [(Sheet, u16); 4] = [
    (Sheet::UPD546, 0x000),
    (Sheet::UPD546, 0x13E),
    (Sheet::UPD546, 0x7CE),
    (
        Sheet {
            rom: 2,
            rows: 0,
            levels: 1,
        },
        0x000,
    ),
];

/// A boundary with r ticks left.
struct Wait {
    r: u64,
    state: State,
    schedule: Vec<u8>,
}

impl Wait {
    /// With the timer as it stands there, INTE 1 and every mark and some cycle numbers in turn. A record comes at the present cycle,
    /// with the lines as they were, and one with a fall of INT when r + 2 cycles are over.
    fn of(r: u64, (register, counter): (u8, u8), pc: u16) -> Wait {
        let cycle = r % 7 * 1_000_000_007;
        let state = State {
            pc,
            inte: 1,
            mark: (r % 5) as u8,
            register,
            counter,
            cycle,
            ..State::fresh()
        };
        let schedule = [record(cycle, 0, 0, 1), record(cycle + r + 2, 0, 0, 0)].concat();
        Wait { r, state, schedule }
    }

    /// TTM is met at every second cycle.
    fn cycles(&self) -> u64 {
        self.r + self.r % 2
    }

    /// A jump of all ticks; TTM and JCP; or a jump of all but one, TTM and JCP.
    fn steps(&self) -> u64 {
        match self.r {
            r if r.is_multiple_of(2) => 1,
            1 => 2,
            _ => 3,
        }
    }
}

/// Waits whose timers have one counter, of one panel.
pub struct Waits {
    sheet: Sheet,
    at: u16,
    waits: Vec<Wait>,
}

impl Waits {
    fn rom(&self) -> Vec<u8> {
        let back = JCP | (self.at & 0x3F) as u8;
        let case = Case::new("").sheet(self.sheet).rom(self.at, &[TTM, back]);
        case.made_rom_bytes()
    }
}

/// The register and the counter with r ticks left, for r from 1 on: those that a timer goes through in cycles after STM BF.
fn timers() -> Vec<(u8, u8)> {
    let waits = Waits {
        sheet: Sheet::UPD546,
        at: 0,
        waits: Vec::new(),
    };
    let rom = waits.rom();
    let mut state = State {
        register: 1,
        counter: 63,
        ..State::fresh()
    };
    let mut timers = Vec::new();
    while state.tm == 0 {
        timers.push((state.register, state.counter));
        state = run(Runner::Plain, &rom, &[], &state, &mut [], 1, waits.sheet).state;
    }
    timers.reverse();
    timers
}

/// All waits, a line for each counter.
pub fn all() -> Vec<Waits> {
    let mut lines = Vec::new();
    for (line, timers) in timers().chunks(LINE).enumerate() {
        let (sheet, at) = PLACES[line % PLACES.len()];
        let ticks = (line * LINE + 1) as u64..;
        let of = |(r, &timer)| Wait::of(r, timer, at);
        let waits = ticks.zip(timers).map(of).collect();
        lines.push(Waits { sheet, at, waits });
    }
    lines
}

/// How many there are.
pub fn counts() -> Vec<Count> {
    let waits = all().iter().map(|line| line.waits.len()).sum();
    vec![(String::from("steps/waits"), waits)]
}

/// What is wrong with the waits: each stands at the TTM that skips after so many steps, 3 at most, and all lengths are there.
pub fn faults(lines: &[Waits]) -> Vec<String> {
    let mut faults = Vec::new();
    let mut due = 1;
    for line in lines {
        let rom = line.rom();
        for wait in &line.waits {
            let state = &wait.state;
            let answer = run(
                Runner::Skipping,
                &rom,
                &wait.schedule,
                state,
                &mut [],
                wait.cycles(),
                line.sheet,
            );
            let stands = answer.number == 0
                && answer.state.pc == line.at
                && answer.state.tm == 1
                && answer.state.owed == 0;
            if wait.r != due || !stands || answer.steps != wait.steps() || answer.steps > MOST {
                faults.push(format!("{} ticks left: {} steps", wait.r, answer.steps));
            }
            due += 1;
        }
    }
    if !lines.is_empty() && due != LONGEST + 1 {
        faults.push(format!("there are waits up to {} ticks", due - 1));
    }
    faults
}

impl Item for Waits {
    fn name(&self) -> String {
        let ticks = |wait: Option<&Wait>| wait.map_or(0, |wait| wait.r);
        format!(
            "waits of {} to {} ticks, TTM at {:03X} of {} bytes",
            ticks(self.waits.first()),
            ticks(self.waits.last()),
            self.at,
            self.sheet.rom
        )
    }

    fn put(&self, stream: &mut Stream) -> String {
        let rom = self.rom();
        let mut chain = Chain::default();
        stream.sheet(self.sheet);
        stream.rom(&rom);
        for wait in &self.waits {
            let mut image = vec![0; Version::Two.length()];
            save(Version::Two, &wait.state, &mut image, self.sheet);
            stream.schedule(&wait.schedule);
            stream.image(&image);
            stream.keep();
            for n in [wait.cycles(), wait.r + 2] {
                let (mut image, mut report) = (image.clone(), pattern(REPORT));
                stream.bring_back();
                stream.call(Of::Group, n, 1, 0, REPORT);
                let lent = &wait.schedule;
                let number = call(
                    &mut image,
                    &rom,
                    lent,
                    &mut [],
                    n,
                    1,
                    &mut report,
                    self.sheet,
                );
                chain.called(number);
                chain.bytes(&report);
                chain.bytes(&image);
            }
        }
        stream.tell_group();
        chain.line()
    }

    fn show(&self) -> String {
        let line = |wait: &Wait| {
            format!(
                "{} ticks: {} steps to the skip, after {} cycles\n",
                wait.r,
                wait.steps(),
                wait.cycles()
            )
        };
        self.waits.iter().map(line).collect()
    }
}

#[cfg(test)]
mod tests {
    use super::*;

    #[test]
    fn no_wait_takes_more_than_three_steps() {
        assert_eq!(faults(&all()), Vec::<String>::new());
    }

    #[test]
    fn a_record_in_the_last_cycle_costs_a_fourth_step() {
        let [line, ..] = &all()[..] else {
            panic!("there is a first line");
        };
        let wait = &line.waits[2];
        let fall = record(wait.state.cycle + 3, 0, 0, 0);
        let after = |n| {
            run(
                Runner::Skipping,
                &line.rom(),
                &fall,
                &wait.state,
                &mut [],
                n,
                line.sheet,
            )
        };
        assert_eq!((wait.r, after(4).steps, after(4).state.tm), (3, 3, 1));
        assert_eq!((after(5).steps, after(5).state.pc), (4, 0x03C));
    }
}

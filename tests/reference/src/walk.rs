//! What program `walk` prints: a line for each machine cycle of a panel, and why it stops.
//!
//! The panel runs cycle by cycle from its first one on, on the plain runner; an observer tells of the instruction
//! that a cycle begins, and of the one that it passes over.

use std::fmt::Write;

use crate::instructions::FORMS;
use crate::lent::Lent;
use crate::log::{records, RESET as RESET_RECORD};
use crate::machine::{following, mark, State, RESET};
use crate::mnemonics::instruction;
use crate::numbers::{ABOVE_ROM, FINISHED, NO_INSTRUCTION, ROM_LENGTH};
use crate::runners::{run_observed, Observer, Runner};
use crate::schedule::{Cursor, Lines};
use crate::sheet::Sheet;
use crate::trace::refused;

/// FROM and TO, before the panel.
const WORD: usize = 8;

const HEADING: &str = "     cycle at  does     Acc C DP M INT INTE mark  owed timer\n";

/// The text of an input: FROM and TO in 8 bytes each, and a panel as program `trace` reads it.
pub fn walk(input: &[u8]) -> String {
    let number = |bytes: &[u8]| bytes.iter().fold(0, |n, &byte| n << 8 | u64::from(byte));
    let parts = || {
        let (from, rest) = input.split_at_checked(WORD)?;
        let (to, panel) = rest.split_at_checked(WORD)?;
        Some((number(from), number(to), Lent::of_panel(panel)?))
    };
    match parts() {
        Some((from, to, lent)) => walked(&lent, from, to),
        None => refused(ROM_LENGTH),
    }
}

/// The cycles up to TO, and the lines of those from FROM on; none is behind the panel's last.
fn walked(lent: &Lent, from: u64, to: u64) -> String {
    let end = to.max(from).min(lent.n);
    let mut text = String::from(HEADING);
    let mut walk = Walk {
        lent,
        state: State::fresh(),
        passed: 0,
    };
    // A run of no cycles, for what refuses it.
    let mut went = walk.run(0, from);
    while went.is_ok() && walk.state.cycle < end {
        went = walk.run(1, from);
        if let Ok(line) = &went {
            text.push_str(line);
        }
    }
    match went {
        Ok(_) => {}
        Err(number @ (ABOVE_ROM | NO_INSTRUCTION)) => {
            text.push_str(&walk.stop(number));
            return text;
        }
        Err(number) => return refused(number),
    }
    let why = if end == lent.n {
        "the panel's cycles are done"
    } else {
        "the walk ends here"
    };
    writeln!(text, "end at cycle {end} of {}: {why}", lent.n).expect("a string takes every line");
    text
}

/// A panel on its way.
struct Walk<'a> {
    lent: &'a Lent,
    state: State,
    /// The bytes that the last instruction begun passes over: the last cycles of those that it owes.
    passed: u8,
}

/// The instruction that a cycle begins: its address, and that of the one that it passes over.
#[derive(Default)]
struct Begun(Option<(u16, Option<u16>)>);

impl Observer for &mut Begun {
    fn begun(&mut self, at: u16, _code: u8, passed: Option<u16>, _times: u64) {
        self.0 = Some((at, passed));
    }
}

impl Walk<'_> {
    fn byte(&self, address: u16) -> u8 {
        *self.lent.rom.get(usize::from(address)).unwrap_or(&0)
    }

    /// One cycle, or none: its line, none before FROM; or the number of a stop or a refusal.
    fn run(&mut self, n: u64, from: u64) -> Result<String, u8> {
        let mut begun = Begun::default();
        let mut log = [0; 16];
        let answer = run_observed(
            Runner::Plain,
            &self.lent.rom,
            &self.lent.schedule,
            &self.state,
            &mut log,
            n,
            Sheet::UPD546,
            &mut begun,
        );
        if answer.number != FINISHED {
            return Err(answer.number);
        }
        let before = std::mem::replace(&mut self.state, answer.state);
        if let Some((_, passed)) = begun.0 {
            let bytes = |passed: u16| FORMS[usize::from(self.byte(passed))].bytes;
            self.passed = passed.map_or(0, bytes);
        }
        if n == 0 || before.cycle < from {
            return Ok(String::new());
        }
        let does = match begun.0 {
            Some((at, _)) => {
                let second = self.byte(following(at));
                let text = instruction(at, self.byte(at), Some(second));
                format!(" {at:03X} {text:<8}")
            }
            None => self.idle(&before),
        };
        let mut line = format!("{:>10}{does}{}", before.cycle, told(&self.state));
        for record in records(&log[..answer.written]) {
            if record.port != RESET_RECORD {
                let port = char::from(b'A' + record.port);
                write!(line, " out {port}={:X}", record.value).expect("a string takes it");
            }
        }
        line.push_str(&self.changes(before.cycle));
        line.push('\n');
        Ok(line)
    }

    /// What a cycle did that began no instruction.
    fn idle(&self, before: &State) -> String {
        let word = if self.state.count == RESET {
            "reset"
        } else if before.owed > self.passed {
            return format!("     {:<8}", "owed");
        } else if before.owed > 0 {
            return format!("     {:<8}", "skipped");
        } else {
            "accepts"
        };
        format!(" {:03X} {word:<8}", before.pc)
    }

    /// The lines of a cycle that aren't those of the cycle before.
    fn changes(&self, cycle: u64) -> String {
        let at = |cycle| *Cursor::new(&self.lent.schedule).at(cycle).lines();
        let none = Lines {
            ports: [0; 4],
            int: 1,
            res: 0,
        };
        let new = at(cycle);
        let last = cycle.checked_sub(1).map_or(none, at);
        let names = ["A", "B", "C", "D", "INT", "RES"];
        let levels = |lines: Lines| {
            let [a, b, c, d] = lines.ports;
            [a, b, c, d, lines.int, lines.res]
        };
        names
            .into_iter()
            .zip(levels(last).into_iter().zip(levels(new)))
            .filter(|(_, (last, new))| last != new)
            .map(|(name, (_, new))| format!(" line {name}={new:X}"))
            .collect()
    }

    fn stop(&self, number: u8) -> String {
        let State { cycle, pc, .. } = self.state;
        let why = if number == NO_INSTRUCTION {
            let code = self.byte(pc);
            format!("the byte due at {pc:03X} is {code:02X}, which is no instruction")
        } else {
            format!("the instruction due at {pc:03X} needs a byte above 7CF")
        };
        format!("stop {number} at cycle {cycle}: {why}; it comes from whoever read the ROM\n")
    }
}

/// The columns of a state.
fn told(state: &State) -> String {
    let chip = Sheet::UPD546.chip().expect("the uPD546 is legal");
    let mark = match state.mark {
        mark::OTHER => "other",
        mark::LDI => "LDI",
        mark::EI => "EI",
        mark::STM => "STM",
        _ => "LI",
    };
    let timer = match (state.register, state.tm) {
        (0, 0) => String::from("-"),
        (0, _) => String::from("TM"),
        _ => state.ticks_left().to_string(),
    };
    format!(
        "   {:X} {} {:X}{:X} {:X}   {}    {} {mark:<5}    {}  {timer:>4}",
        state.acc,
        state.carry,
        state.dph,
        state.dpl,
        state.m(&chip),
        state.int,
        state.inte,
        state.owed
    )
}

#[cfg(test)]
mod tests {
    use super::*;
    use crate::case::{lines, panel, LinesFrom};

    fn text(from: u64, to: u64, n: u32, code: &[(usize, &[u8])], records: &[LinesFrom]) -> String {
        let panel = panel(n, code, &lines(records));
        walk(&[&from.to_be_bytes()[..], &to.to_be_bytes(), &panel].concat())
    }

    fn hold(text: String, due: &[&str]) {
        let made: Vec<&str> = text.lines().collect();
        assert_eq!(made, due);
    }

    const HEAD: &str = "     cycle at  does     Acc C DP M INT INTE mark  owed timer";

    #[test]
    fn the_documents_example_is_told() {
        let code: (usize, &[u8]) = (0, &[0x1E, 0xA5, 0x93, 0x44, 0x1C]);
        hold(
            text(0, 20, 10, &[code], &[]),
            &[
                HEAD,
                "         0 000 OCD A5     0 0 00 0   0    0 other    1     - out C=5 out D=A",
                "         1     owed       0 0 00 0   0    0 other    0     -",
                "         2 002 LI  3      3 0 00 0   0    0 LI       0     -",
                "         3 003 OE         3 0 00 0   0    0 other    1     - out E=3",
                "         4     owed       3 0 00 0   0    0 other    0     -",
                "stop 23 at cycle 5: the byte due at 004 is 1C, which is no instruction; it comes from whoever read the ROM",
            ],
        );
    }

    #[test]
    fn a_skip_owes_the_bytes_that_it_passes_over() {
        // CI 3 passes over OCD: one cycle of its own, two of the skip.
        let code: (usize, &[u8]) = (0, &[0x93, 0x17, 0x03, 0x1E, 0xA5, 0x42]);
        hold(
            text(2, 6, 9, &[code], &[]),
            &[
                HEAD,
                "         2     owed       3 0 00 0   0    0 other    2     -",
                "         3     skipped    3 0 00 0   0    0 other    1     -",
                "         4     skipped    3 0 00 0   0    0 other    0     -",
                "         5 005 TAZ        3 0 00 0   0    0 other    1     -",
                "end at cycle 6 of 9: the walk ends here",
            ],
        );
    }

    #[test]
    fn an_acceptance_and_lines_are_told() {
        // EI and NOPs; INT falls in cycle 1, after the mark EI.
        hold(
            text(0, 4, 4, &[(0, &[0x31])], &[(1, 0x20, 0x0F, 0, 0)]),
            &[
                HEAD,
                "         0 000 EI         0 0 00 0   0    1 EI       0     -",
                "         1 001 NOP        0 0 00 0   1    1 other    0     - line A=2 line D=F line INT=0",
                "         2 002 accepts    0 0 00 0   0    0 other    0     -",
                "         3 03C NOP        0 0 00 0   0    0 other    0     -",
                "end at cycle 4 of 4: the panel's cycles are done",
            ],
        );
    }

    #[test]
    fn a_reset_and_the_timer_are_told() {
        // STM 80 and NOPs; RES is high from cycle 1 on for four cycles.
        hold(
            text(
                0,
                6,
                90,
                &[(0, &[0x14, 0x80])],
                &[(1, 0, 0, 1, 1), (5, 0, 0, 1, 0)],
            ),
            &[
                HEAD,
                "         0 000 STM 80     0 0 00 0   0    0 STM      1    63",
                "         1     owed       0 0 00 0   0    0 STM      0    63 line RES=1",
                "         2 002 NOP        0 0 00 0   0    0 other    0    62",
                "         3 003 NOP        0 0 00 0   0    0 other    0    61",
                "         4 004 reset      0 0 00 0   0    0 other    0     -",
                "         5 000 STM 80     0 0 00 0   0    0 STM      1    63 line RES=0",
                "end at cycle 6 of 90: the walk ends here",
            ],
        );
        let last = text(64, 65, 90, &[(0, &[0x14, 0x80])], &[]);
        assert_eq!(last.lines().nth(1).map(|line| &line[55..]), Some("   TM"));
    }

    #[test]
    fn nothing_is_walked_behind_the_end() {
        let done = "end at cycle 4 of 4: the panel's cycles are done";
        hold(text(9, 12, 4, &[], &[]), &[HEAD, done]);
        let here = "end at cycle 3 of 4: the walk ends here";
        hold(text(3, 1, 4, &[], &[]), &[HEAD, here]);
        let none = "end at cycle 0 of 0: the panel's cycles are done";
        hold(text(0, 20, 0, &[], &[]), &[HEAD, none]);
        let stop = "stop 22 at cycle 2: the instruction due at 7D0 needs a byte above 7CF; it comes from whoever read the ROM";
        hold(text(50, 60, 90, &[(0, &[0xA7, 0xD0])], &[]), &[HEAD, stop]);
        assert_eq!(walk(&[0; 2_019]), "refused 21\n");
        assert_eq!(
            text(0, 9, 9, &[], &[(5, 0, 0, 1, 0), (5, 0, 0, 1, 0)]),
            "refused 14\n"
        );
    }
}

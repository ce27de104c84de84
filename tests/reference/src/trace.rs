//! What program `trace` prints.

use std::fmt::Write;

use crate::lent::Lent;
use crate::log::{records, RESET};
use crate::numbers::ROM_LENGTH;

/// The text of a run's log. "Cycle decimal, port letter, value hexadecimal"; the record of a reset has the
/// letter R.
pub(crate) fn log_text(log: &[u8]) -> String {
    let mut text = String::from("cycle port value\n");
    for record in records(log) {
        let port = match record.port {
            RESET => 'R',
            port => char::from(b'A' + port),
        };
        writeln!(text, "{} {port} {:X}", record.cycle, record.value)
            .expect("a string takes every line");
    }
    text
}

/// Runs the panel and lists its log, "then cycles, instructions, stop (0 if finished). A refusal
/// prints only `refused` and the number."
pub fn trace(input: &[u8]) -> String {
    let Some(lent) = Lent::of_panel(input) else {
        return refused(ROM_LENGTH);
    };
    let (answer, log) = lent.run();
    if answer.refused {
        return refused(answer.number);
    }
    let mut text = log_text(&log[..answer.written]);
    writeln!(
        text,
        "end {} {} {}",
        answer.cycles, answer.begun, answer.number
    )
    .expect("a string takes every line");
    text
}

pub(crate) fn refused(number: u8) -> String {
    format!("refused {number}\n")
}

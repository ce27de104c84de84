//! Legal states to start from that no run reaches, and legal states of every kind.

use reference::case::{highest, Case, FEW_JCP, INSIDE, NO_STOPS};
use reference::draw::Draw;
use reference::State;

pub fn cases() -> Vec<Case> {
    let mut cases = marks();
    cases.extend(timers());
    cases.extend(above_the_rom());
    cases.push(
        Case::new("every field at its highest")
            .state(State {
                cycle: (1 << 48) - 10,
                ..highest()
            })
            .ram(0, &[15; 96])
            .n(9),
    );
    cases.extend(drawn());
    cases
}

/// Every mark with every number of cycles owed, the timer a step before its end or stopped, and with
/// and without an interrupt to accept. LDI is due.
fn marks() -> Vec<Case> {
    let mut cases = Vec::new();
    for mark in 0..=4 {
        for owed in 0..=3 {
            for (register, counter, flags) in [(0, 0, 0), (32, 0, 0), (32, 1, 1), (0, 0, 1)] {
                let name =
                    format!("mark {mark}, owed {owed}, register {register}, INT and INTE {flags}");
                let case = Case::new(name)
                    .rom(0x123, &[0x15, 0x47, 0x15, 0x28, 0x05, 0x00, 0x00])
                    .with(|state| {
                        state.pc = 0x123;
                        (state.mark, state.owed) = (mark, owed);
                        (state.register, state.counter) = (register, counter);
                        (state.int, state.inte) = (flags, flags);
                    });
                cases.push(case.n(5 + u64::from(owed)).ends(0));
            }
        }
    }
    cases
}

/// TM 1 with the timer running, and every kind of place of the register, at a waiting loop.
fn timers() -> Vec<Case> {
    let mut cases = Vec::new();
    for tm in [0, 1] {
        for (register, counter) in [(1, 0), (2, 0), (32, 0), (33, 0), (63, 0), (1, 1), (48, 2)] {
            for mark in [0, 3] {
                let name =
                    format!("TM {tm}, register {register}, counter {counter}, mark {mark}, waits");
                cases.push(
                    Case::new(name)
                        .rom(0x040, &[0x05, 0xC0, 0x44, 0x14, 0x40, 0xC0])
                        .with(|state| {
                            state.pc = 0x040;
                            (state.tm, state.mark) = (tm, mark);
                            (state.register, state.counter) = (register, counter);
                        })
                        .log(400)
                        .n(300)
                        .ends(0),
                );
            }
        }
    }
    cases
}

/// PC above 7CF with cycles owed, with an interrupt to accept, and with nothing to do.
fn above_the_rom() -> Vec<Case> {
    let mut cases = Vec::new();
    for pc in [0x7D0, 0x7FE, 0x7FF] {
        for (owed, flags, n, number) in [
            (0, 0, 0, 0),
            (0, 0, 1, 22),
            (2, 0, 2, 0),
            (2, 0, 3, 22),
            (0, 1, 1, 0),
            (0, 1, 4, 0),
            (3, 1, 6, 0),
        ] {
            cases.push(
                Case::new(format!(
                    "PC {pc:03X}, owed {owed}, INT and INTE {flags}, n {n}"
                ))
                .with(|state| {
                    (state.pc, state.owed) = (pc, owed);
                    (state.int, state.inte) = (flags, flags);
                })
                .n(n)
                .ends(number),
            );
        }
    }
    cases
}

/// Any legal state, any ROM, records close together.
fn drawn() -> Vec<Case> {
    let mut cases = Vec::new();
    let mut draw = Draw::new(546);
    for place in 0..80 {
        let mut state = draw.state();
        if draw.one_in(4) {
            state.pc = 0x7C0 | draw.below(64) as u16;
            state.stack = [0; 3].map(|_| draw.below(0x800) as u16);
        }
        let filter = draw.of(&[0, NO_STOPS, NO_STOPS | FEW_JCP, NO_STOPS | INSIDE | FEW_JCP]);
        let first = state.cycle.saturating_sub(draw.below(40));
        cases.push(
            Case::new(format!("any state {place}"))
                .made_rom(draw.seed(), filter)
                .made_ram(draw.seed())
                .made_schedule(
                    10 * draw.below(60) as u16,
                    draw.seed(),
                    draw.of(&[1, 3, 20]),
                    first,
                )
                .state(state)
                .log(draw.of(&[40, 200, 1_000]))
                .n(1 + draw.below(400)),
        );
    }
    cases
}

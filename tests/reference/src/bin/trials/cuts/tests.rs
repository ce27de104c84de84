//! The lists are run on this interpreter too, and the cuts fall where they have to.

use std::collections::BTreeSet;

use reference::call::convert;
use reference::{restore, Answer};

use super::*;

/// What a panel lends, and its sheet.
struct Lent {
    rom: Vec<u8>,
    schedule: Vec<u8>,
    sheet: Sheet,
}

impl Lent {
    fn of(panel: &Panel) -> Lent {
        Lent {
            rom: panel.case.made_rom_bytes(),
            schedule: panel.case.made_schedule_bytes(),
            sheet: panel.sheet(),
        }
    }

    /// A run of n cycles on a log with room for every record.
    fn run(&self, runner: Runner, state: &State, n: u64) -> (Answer, Vec<u8>) {
        let mut log = lent_log(n);
        let Lent {
            rom,
            schedule,
            sheet,
        } = self;
        let answer = run(runner, rom, schedule, state, &mut log, n, *sheet);
        (answer, log)
    }

    fn check_refused(&self, panel: &Panel, call: Refused, runner: Runner, state: &State) {
        let Lent {
            rom,
            schedule,
            sheet,
        } = self;
        let number = call.number();
        let run = |rom: &[u8], schedule: &[u8], n, sheet| {
            refused_run(number, runner, (rom, schedule), state, n, sheet)
        };
        match call {
            Refused::Rom => run(&rom[1..], schedule, 9, *sheet),
            Refused::Schedule => run(rom, &[0; 7], 9, *sheet),
            Refused::Cycles => run(rom, schedule, u64::MAX, *sheet),
            Refused::OtherSheet => run(rom, schedule, 9, panel.other_sheet()),
            Refused::Buffer => refused_save(1, state, IMAGE - 1, *sheet),
            Refused::Length => refused_restore(31, &[0; 80], *sheet),
            Refused::Sheet(place) => {
                let wrong = panel.wrong_sheet(place);
                run(rom, schedule, 9, wrong);
                refused_save(71, state, IMAGE, wrong);
                let mut image = image_of(state, *sheet);
                refused_restore(71, &image, wrong);
                let (mut log, mut report) = (lent_log(9), pattern(REPORT));
                let before = image.clone();
                let answered = call_of(&mut image, rom, schedule, &mut log, 9, &mut report, wrong);
                assert_eq!((answered, log), (71, lent_log(9)));
                assert_eq!((image, report), (before, vec![0; REPORT]));
            }
            Refused::Mark | Refused::Version | Refused::Field | Refused::Absent => {
                let mut image = image_of(state, *sheet);
                let (place, value) = call.damage(*sheet).unwrap();
                image[place] = value;
                refused_restore(number, &image, *sheet);
            }
        }
    }

    fn run_list(&self, panel: &Panel, start: &State, slices: &[Slice]) -> End {
        let mut state = start.clone();
        let mut joined = Vec::new();
        let (mut number, mut cycles, mut begun) = (0, 0, 0);
        for slice in slices {
            let (answer, log) = self.run(slice.runner, &state, slice.cycles);
            assert!(!answer.refused && answer.number != 3);
            if number == 0 {
                number = answer.number;
            }
            if answer.number == 0 {
                assert_eq!(answer.cycles, slice.cycles);
            } else {
                assert_eq!(answer.number, number);
            }
            let lent = lent_log(slice.cycles);
            assert_eq!(log[answer.written..], lent[answer.written..]);
            cycles += answer.cycles;
            begun += answer.begun;
            joined.extend_from_slice(&log[..answer.written]);
            if let Some(call) = slice.refused {
                self.check_refused(panel, call, slice.runner, &answer.state);
            }
            let (restored, again) = restore(&kept(slice, &answer.state, self.sheet), self.sheet);
            assert_eq!(restored, 0);
            state = again;
        }
        End {
            number,
            cycles,
            begun,
            log: joined,
            state,
        }
    }
}

/// The image that is kept behind a slice, which is converted to version 1 and back alike.
fn kept(slice: &Slice, state: &State, sheet: Sheet) -> Vec<u8> {
    let (two, mut one, mut again) = (image_of(state, sheet), vec![0; OLD], vec![0; IMAGE]);
    if !slice.old {
        return two;
    }
    let due = if state.count == 0 { 0 } else { 54 };
    assert_eq!(convert(&two, &mut one, 1, sheet), due);
    assert_eq!(save(Version::One, state, &mut one, sheet), due);
    if due != 0 {
        return two;
    }
    assert_eq!(convert(&one, &mut again, 2, sheet), 0);
    assert_eq!(again, two);
    one
}

fn refused_save(number: u8, state: &State, length: usize, sheet: Sheet) {
    let mut buffer = pattern(length);
    assert_eq!(save(Version::Two, state, &mut buffer, sheet), number);
    assert_eq!(buffer, pattern(length));
}

fn refused_restore(number: u8, image: &[u8], sheet: Sheet) {
    assert_eq!(restore(image, sheet), (number, State::fresh()));
}

fn call_of(
    image: &mut [u8],
    rom: &[u8],
    schedule: &[u8],
    log: &mut [u8],
    n: u64,
    report: &mut [u8],
    sheet: Sheet,
) -> u8 {
    call(image, rom, schedule, log, n, 1, report, sheet)
}

fn refused_run(
    number: u8,
    runner: Runner,
    (rom, schedule): (&[u8], &[u8]),
    state: &State,
    n: u64,
    sheet: Sheet,
) {
    let mut log = lent_log(9);
    let answer = run(runner, rom, schedule, state, &mut log, n, sheet);
    assert_eq!((answer.number, answer.refused), (number, true));
    assert_eq!(answer.state, *state);
    assert_eq!((answer.cycles, answer.clocks, answer.begun), (0, 0, 0));
    assert_eq!((answer.written, answer.steps), (0, 0));
    assert_eq!(log, lent_log(9));
}

#[test]
fn every_list_ends_as_the_unbroken_run() {
    for panel in all() {
        let lent = Lent::of(&panel);
        let start = panel.case.start();
        let (end, _) = panel.unbroken(Runner::Plain);
        assert_eq!(panel.unbroken(Runner::Skipping).0, end);
        for slices in panel.cut_lists().iter().chain(&panel.drawn_lists()) {
            let name = &panel.case.name;
            assert_eq!(
                lent.run_list(&panel, &start, slices),
                end,
                "{name}: {slices:?}"
            );
        }
    }
}

#[test]
fn a_restore_that_forgets_is_seen() {
    // A fresh state in the middle of each run.
    for panel in all() {
        let lent = Lent::of(&panel);
        let (end, _) = panel.unbroken(Runner::Plain);
        let slices = &list::cut(panel.case.cycles(), end.cycles / 2, panel.is_smaller());
        let first = lent.run_list(&panel, &panel.case.start(), &slices[..1]);
        let second = lent.run_list(&panel, &State::fresh(), &slices[1..]);
        assert_ne!(
            (first.begun + second.begun, second.state),
            (end.begun, end.state)
        );
    }
}

#[test]
fn every_panel_ends_as_it_has_to() {
    assert_eq!(faults(&all()), Vec::<String>::new());
    let numbers: BTreeSet<u8> = all()
        .iter()
        .map(|panel| panel.unbroken(Runner::Plain).0.number)
        .collect();
    assert_eq!(numbers, BTreeSet::from([0, 22, 23]));
}

/// The states at the cuts of a panel.
fn states(panel: &Panel) -> Vec<State> {
    let lent = Lent::of(panel);
    let mut state = panel.case.start();
    let mut states = vec![state.clone()];
    for _ in 0..panel.cuts {
        state = lent.run(Runner::Plain, &state, 1).0.state;
        states.push(state.clone());
    }
    states
}

#[test]
fn cuts_fall_everywhere() {
    let states: Vec<State> = all().iter().flat_map(states).collect();
    let falls = |name: &str, condition: &dyn Fn(&State) -> bool| {
        let count = states.iter().filter(|state| condition(state)).count();
        assert!(count >= 10, "{name}: {count} cuts");
    };
    for owed in 1..=2 {
        falls("cycles owed", &|s| s.owed == owed);
    }
    falls("an interrupt to be accepted", &|s| {
        s.int == 1 && s.inte == 1 && s.owed == 0 && matches!(s.mark, 0 | 3)
    });
    for mark in [1, 2, 4] {
        falls("an interrupt that a mark holds back", &|s| {
            s.int == 1 && s.inte == 1 && s.owed == 0 && s.mark == mark
        });
    }
    falls("in the answer", &|s| (0x3C..0x43).contains(&s.pc));
    falls("mark LDI with cycles owed", &|s| s.mark == 1 && s.owed > 0);
    falls("mark STM with cycles owed", &|s| s.mark == 3 && s.owed > 0);
    falls("mark STM at its end", &|s| s.mark == 3 && s.owed == 0);
    falls("a running timer", &|s| s.register > 1 && s.counter > 1);
    falls("the timer's last step", &|s| {
        s.register == 32 && s.counter == 0
    });
    falls("TM set", &|s| s.tm == 1);
    falls("level low", &|s| s.level == 0);
    falls("C and C' set", &|s| s.carry == 1 && s.saved == 1);
    falls("PC above 7CF", &|s| s.pc > 0x7CF);
    for count in 1..=4 {
        falls("a count", &|s| s.count == count);
    }
    falls("a count with cycles owed", &|s| s.count == 3 && s.owed > 0);
    falls("a count with an interrupt to be accepted", &|s| {
        s.count == 3 && s.int == 1 && s.inte == 1 && s.owed == 0 && matches!(s.mark, 0 | 3)
    });
    let last_step = |s: &&State| s.count > 0 && s.register == 32 && s.counter == 0;
    assert!(states.iter().filter(last_step).count() >= 5);
    falls("a count with a mark", &|s| s.count == 3 && s.mark > 0);
}

#[test]
fn waits_are_jumped_and_nothing_else() {
    for panel in all() {
        let (end, steps) = panel.unbroken(Runner::Skipping);
        let name = &panel.case.name;
        let words = ["wait", "timer running", "last cycle"];
        let waits = words.iter().any(|word| name.contains(word));
        if waits {
            assert!(2 * steps < end.cycles, "{name}: {steps} steps");
        } else {
            assert_eq!(steps, end.cycles, "{name}");
        }
    }
}

/// The steps of the timer-skipping runner for n cycles of a panel, and the state that it comes to.
fn skipped(panel: &Panel, n: u64) -> (u64, State) {
    let start = panel.case.start();
    let (answer, _) = Lent::of(panel).run(Runner::Skipping, &start, n);
    (answer.steps, answer.state)
}

#[test]
fn a_run_ends_with_a_jump_from_mark_stm() {
    let ends = |panel: &Panel| {
        let n = panel.case.cycles();
        let (last, _) = skipped(panel, n);
        // Where the last step begins.
        let before = |&k: &u64| skipped(panel, k).0 < last;
        let from = (0..n).rev().find(before).expect("a run of no cycles");
        n - from >= 2 && skipped(panel, from).1.mark == 3
    };
    assert!(all().iter().any(ends));
}

/// Whether the timer-skipping runner jumps from a state of a panel.
fn jumps(lent: &Lent, state: &State) -> bool {
    let (answer, _) = lent.run(Runner::Skipping, state, 2);
    (answer.cycles, answer.steps) == (2, 1)
}

#[test]
fn a_timer_skipping_slice_begins_with_a_jump_from_every_mark() {
    let mut counts = [0; 5];
    for panel in all() {
        let lent = Lent::of(&panel);
        for (state, cut) in states(&panel).iter().zip(panel.cut_lists()) {
            if cut[1].runner == Runner::Skipping && jumps(&lent, state) {
                counts[usize::from(state.mark)] += 1;
            }
        }
    }
    assert!(counts.iter().all(|&count| count >= 5), "{counts:?}");
}

/// A panel by its name.
fn named(name: &str) -> Panel {
    let panel = all().into_iter().find(|panel| panel.case.name == name);
    panel.expect("the panel is there")
}

#[test]
fn int_falls_at_every_place_of_a_string() {
    for (name, mark, places) in [
        ("strings of LI", 4, [0x41, 0x42, 0x43, 0x44].as_slice()),
        ("strings of LDI", 1, &[0x62, 0x64, 0x66]),
    ] {
        let states = states(&named(name));
        let held: BTreeSet<u16> = states
            .windows(2)
            .filter(|two| two[0].int == 0 && two[1].int == 1 && two[1].inte == 1)
            .filter(|two| two[1].mark == mark)
            .map(|two| two[1].pc)
            .collect();
        assert!(
            places.iter().all(|place| held.contains(place)),
            "{name}: {held:X?}"
        );
    }
}

#[test]
fn a_mark_that_is_lost_shows_in_what_is_loaded() {
    for (name, mark) in [("strings of LI", 4), ("strings of LDI", 1)] {
        let panel = named(name);
        let lent = Lent::of(&panel);
        let n = panel.case.cycles();
        let (mut held, mut seen) = (0, 0);
        for (state, k) in states(&panel).iter().zip(0..=n) {
            if state.mark == mark {
                let forgotten = State {
                    mark: 0,
                    ..state.clone()
                };
                let logs = [state, &forgotten].map(|from| lent.run(Runner::Plain, from, n - k).1);
                held += 1;
                seen += u64::from(logs[0] != logs[1]);
            }
        }
        // All but those behind a string's last load, and of the run's last.
        assert!(held > 200, "{name}: {held} cuts");
        assert!(2 * seen > held, "{name}: {seen} of {held} cuts");
    }
}

#[test]
fn a_count_that_is_lost_or_kept_shows_in_the_log() {
    let panel = named("resets of interrupts, skips and OCD");
    let lent = Lent::of(&panel);
    let n = panel.case.cycles();
    let log_from = |state: &State, k: u64| lent.run(Runner::Plain, state, n - k).1;
    let (mut lost, mut kept) = (0, 0);
    for (state, k) in states(&panel).iter().zip(0..=n) {
        let with = |count: u8| State {
            count,
            ..state.clone()
        };
        // A cut within a pulse that forgets it, and one that makes it out of nothing.
        if (1..4).contains(&state.count) {
            lost += u64::from(log_from(state, k) != log_from(&with(0), k));
        }
        if state.count == 0 {
            kept += u64::from(log_from(state, k) != log_from(&with(3), k));
        }
    }
    assert!(lost > 80 && kept > 80, "{lost} and {kept} cuts");
}

#[test]
fn an_interrupt_after_ei_holds_back_a_jump() {
    let mut count = 0;
    for panel in all() {
        let lent = Lent::of(&panel);
        for state in states(&panel) {
            let without = State {
                int: 0,
                ..state.clone()
            };
            let held = (state.mark, state.int, state.inte) == (2, 1, 1);
            if held && jumps(&lent, &without) {
                assert!(!jumps(&lent, &state));
                count += 1;
            }
        }
    }
    assert!(count >= 5, "{count} cuts");
}

#[test]
fn lists_are_of_every_kind() {
    for panel in all() {
        let n = panel.case.cycles();
        let lists = panel.drawn_lists();
        let counts: BTreeSet<usize> = lists.iter().map(Vec::len).collect();
        assert!(counts.len() >= 18 && counts.contains(&20));
        for slices in &lists {
            assert_eq!(slices.iter().map(|slice| slice.cycles).sum::<u64>(), n);
        }
        let cuts = panel.cut_lists();
        assert_eq!(cuts.len() as u64, n + 1);
        for lists in [&lists, &cuts] {
            for call in list::ALL {
                let made = |slice: &Slice| slice.refused == Some(call);
                assert!(lists.iter().flatten().any(made), "{call:?}");
            }
            for pair in [
                [Runner::Plain, Runner::Plain],
                [Runner::Plain, Runner::Skipping],
                [Runner::Skipping, Runner::Plain],
                [Runner::Skipping, Runner::Skipping],
            ] {
                let runs = |w: &[Slice]| [w[0].runner, w[1].runner] == pair;
                assert!(lists.iter().any(|slices| slices.windows(2).any(runs)));
            }
        }
    }
}

/// Under a smaller sheet lists have the refused calls that look at it, under every sheet that is none.
#[test]
fn lists_of_smaller_chips_have_calls_under_other_sheets() {
    for panel in all().into_iter().filter(Panel::is_smaller) {
        let name = &panel.case.name;
        let lists = [panel.cut_lists(), panel.drawn_lists()].concat();
        let refused = list::refused(&lists);
        assert!(refused.contains(&Refused::OtherSheet), "{name}");
        assert!(refused.contains(&Refused::Absent), "{name}");
        let wrong: BTreeSet<usize> = refused
            .iter()
            .filter_map(|call| match call {
                Refused::Sheet(place) => Some(*place),
                _ => None,
            })
            .collect();
        assert!(wrong.len() > 8, "{name}: {wrong:?}");
    }
    // And the other panels have none of them.
    for panel in all().into_iter().filter(|panel| !panel.is_smaller()) {
        let refused = list::refused(&panel.cut_lists());
        assert!(refused.iter().all(|call| list::ALL.contains(call)));
    }
}

/// A level or a row that is lost at a cut shows in the log, and so does one more level than there is.
#[test]
fn a_level_that_is_lost_or_brought_in_shows() {
    for levels in 2..=3 {
        let panel = named(&format!("calls in calls, levels: {levels}"));
        let lent = Lent::of(&panel);
        let n = panel.case.cycles();
        let log_from = |state: &State, k: u64| lent.run(Runner::Plain, state, n - k).1;
        let mut seen = 0;
        for (state, k) in states(&panel).iter().zip(0..=n).take(300) {
            let mut forgotten = state.clone();
            forgotten.stack[levels - 1] = 0;
            seen += u64::from(log_from(state, k) != log_from(&forgotten, k));
        }
        assert!(seen > 20, "{levels} levels: {seen} cuts");
    }
    // The same program on chips of one, two and three levels goes three ways.
    let ends: Vec<End> = (1..=3)
        .map(|levels| named(&format!("calls in calls, levels: {levels}")))
        .map(|panel| panel.unbroken(Runner::Plain).0)
        .collect();
    assert!(ends[0].log != ends[1].log && ends[1].log != ends[2].log);
    let rows: BTreeSet<Vec<u8>> = ["00000", "10101", "01010", "11110"]
        .map(|rows| named(&format!("every row, of which there are {rows}")))
        .map(|panel| panel.unbroken(Runner::Plain).0.log)
        .into();
    assert_eq!(rows.len(), 4);
}

#[test]
fn a_latch_that_is_lost_shows_in_what_is_read() {
    let panels = all();
    let panel = panels
        .iter()
        .find(|panel| panel.case.name == "C and D read back")
        .expect("the panel is there");
    let lent = Lent::of(panel);
    let n = panel.case.cycles();
    for port in 0..2 {
        let (mut held, mut seen) = (0, 0);
        for (state, k) in states(panel).iter().zip(0..=n) {
            let mut forgotten = state.clone();
            forgotten.ports[port] = 0;
            if forgotten != *state {
                let logs = [state, &forgotten].map(|from| lent.run(Runner::Plain, from, n - k).1);
                held += 1;
                seen += u64::from(logs[0] != logs[1]);
            }
        }
        // All but those of the last pass before a new value, and of the run's last.
        assert!(held > n * 8 / 10, "{held} cuts");
        assert!(seen > held * 9 / 10, "{seen} of {held} cuts");
    }
}

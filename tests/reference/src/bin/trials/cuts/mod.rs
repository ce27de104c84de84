//! The power cuts. A panel is a ROM, a line schedule, a state and N cycles. Its unbroken run is one call of
//! the plain runner. A list of slices is of N cycles together, by either runner, with a switch-off after
//! each, and with calls between that are refused. Each list has to end as the unbroken run does. The lines
//! are made of the unbroken runs alone.
//!
//! In lists of the board's call the image is what is kept over a switch-off. In lists of runs a slice is a
//! run, a save to 82 bytes and a restore of these; the runs write to one log of 16 N bytes. After some slices
//! version 1 is wanted: of the board's call the image is converted to that and back, of runs it is saved and
//! restored as that. Where the count isn't 0, that is one more refused call, 54, and the image is of version 2.
//!
//! Under a smaller sheet than the uPD546's the slices are under that sheet, and where others have no refused call these have
//! one under a sheet that is refused (71) or is another chip's (21), or on an image with something that the chip doesn't have.
//!
//! The cut at k: a slice of k cycles by runner k % 2 (0 plain, 1 timer-skipping) with a refused call where k
//! isn't a multiple of 6, and version 1 wanted where k % 3 is 1; then a slice of N - k cycles by runner k / 2 % 2
//! with neither.
//!
//! A drawn list: each number is the next one of the comparison's generator, which starts at the seed
//! and goes on from list to list. x is the top eight bits of a number and w its top sixteen. One
//! number says how many slices there are, m = 1 + x % 20. For each slice, one number gives the runner
//! x / 128, whether version 1 is wanted, x / 64 % 2, and the refused call x % 8, none for 0, and one its cycles,
//! w % (2 N / m + 1), but no more than are left; the last slice takes what is left.

mod list;
mod roms;
mod sheets;
#[cfg(test)]
mod tests;

use reference::call::{call, REPORT};
use reference::case::{digest, state_bytes, Case};
use reference::kinds::{counts_of, Count};
use reference::lent::Lent;
use reference::sheets::wrong;
use reference::{run, save, Runner, Sheet, State, Version};

use crate::cases::call_line;
use crate::stream::{pattern, Of, PanelLine, Stream};
use crate::Item;
use list::{Refused, Slice};

/// Bytes of an image of each version.
const IMAGE: usize = 82;
const OLD: usize = 81;

/// The longest run whose log of 16 n bytes a reader has.
const LONGEST: u64 = 4_096;

/// "54, in a save between 34 and 1, a version 1 image wanted while the count isn't 0"
const COUNT_LOST: u64 = 54;

/// Drawn lists of a panel.
const LISTS: u16 = 150;

/// A panel with its lists.
#[derive(Clone)]
pub struct Panel {
    pub case: Case,
    pub cuts: u16,
    pub lists: u16,
    pub seed: u32,
}

/// What a list of slices, or the unbroken run, ends with.
#[derive(Clone, PartialEq, Eq, Debug)]
pub struct End {
    pub number: u8,
    pub cycles: u64,
    pub begun: u64,
    pub log: Vec<u8>,
    pub state: State,
}

pub fn all() -> Vec<Panel> {
    let seeds = (0..).map(|place| 43 + 7_919 * place);
    roms::panels()
        .into_iter()
        .zip(seeds)
        .map(|(case, seed)| Panel {
            cuts: u16::try_from(case.cycles()).expect("the cuts have two bytes"),
            case,
            lists: LISTS,
            seed,
        })
        .collect()
}

/// The log that a run of so many cycles is lent.
pub fn lent_log(n: u64) -> Vec<u8> {
    assert!(n <= LONGEST);
    pattern(16 * n as usize)
}

fn image_of(state: &State, sheet: Sheet) -> Vec<u8> {
    let mut image = vec![0; IMAGE];
    assert_eq!(save(Version::Two, state, &mut image, sheet), 0);
    image
}

impl Panel {
    /// One run of all cycles.
    fn whole(&self, runner: Runner) -> Lent {
        Lent {
            runner,
            log: lent_log(self.case.cycles()),
            ..self.case.lent()
        }
    }

    /// Its end, and its steps.
    pub fn unbroken(&self, runner: Runner) -> (End, u64) {
        let (answer, log) = self.whole(runner).run();
        assert!(!answer.refused, "{}", self.case.name);
        let end = End {
            number: answer.number,
            cycles: answer.cycles,
            begun: answer.begun,
            log: log[..answer.written].to_vec(),
            state: answer.state,
        };
        (end, answer.steps)
    }

    /// The sheet of all its slices.
    pub fn sheet(&self) -> Sheet {
        self.case.under()
    }

    fn is_smaller(&self) -> bool {
        self.sheet() != Sheet::UPD546
    }

    /// The sheets of refused calls: one that isn't legal, and one of another chip, with a ROM of another length.
    fn wrong_sheet(&self, place: usize) -> Sheet {
        let wrong = wrong(self.sheet());
        wrong[place % wrong.len()]
    }

    fn other_sheet(&self) -> Sheet {
        let sheet = self.sheet();
        let rom = if sheet.rom > 1 { sheet.rom - 1 } else { 2 };
        Sheet { rom, ..sheet }
    }

    pub fn cut_lists(&self) -> Vec<Vec<list::Slice>> {
        let n = self.case.cycles();
        (0..=u64::from(self.cuts))
            .map(|k| list::cut(n, k, self.is_smaller()))
            .collect()
    }

    pub fn drawn_lists(&self) -> Vec<Vec<list::Slice>> {
        list::drawn(self.case.cycles(), self.lists, self.seed, self.is_smaller())
    }

    fn lists(&self, kind: Kind) -> Vec<Vec<Slice>> {
        match kind {
            Kind::Cuts => self.cut_lists(),
            Kind::Drawn => self.drawn_lists(),
        }
    }

    /// The count after each number of cycles of the unbroken run; behind a stop, that of the stop.
    pub fn counts(&self) -> Vec<u8> {
        let lent = self.whole(Runner::Plain);
        let mut state = lent.state;
        let mut counts = vec![state.count];
        for _ in 0..lent.n {
            let (rom, schedule, log) = (&lent.rom, &lent.schedule, &mut [0; 16]);
            state = run(Runner::Plain, rom, schedule, &state, log, 1, lent.sheet).state;
            counts.push(state.count);
        }
        counts
    }

    /// The counts wherever version 1 is wanted, in all lists.
    fn counts_at_old(&self) -> Vec<u8> {
        let counts = self.counts();
        let mut found = Vec::new();
        for slices in self.cut_lists().iter().chain(&self.drawn_lists()) {
            let mut done = 0;
            for slice in slices {
                done += slice.cycles as usize;
                if slice.old {
                    found.push(counts[done]);
                }
            }
        }
        found
    }

    /// What is lent to all its runs.
    fn put_lent(&self, stream: &mut Stream) {
        stream.sheet(self.sheet());
        stream.rom(&self.case.made_rom_bytes());
        stream.schedule(&self.case.made_schedule_bytes());
    }

    /// The line of some lists, whose calls are so many, so many of them refused because of a count.
    fn line(&self, lists: &[Vec<Slice>], calls: Tally, kept: u64, log: u64) -> String {
        let (end, _) = self.unbroken(Runner::Plain);
        let refused = list::refused(lists);
        let numbers = refused.iter().map(|call| u64::from(call.number()));
        PanelLine {
            number: end.number,
            cycles: end.cycles,
            begun: end.begun,
            written: end.log.len(),
            kept,
            log,
            lists: lists.len(),
            calls: calls.all,
            refused: refused.len() as u64 + calls.lost,
            numbers: numbers.sum::<u64>() + COUNT_LOST * calls.lost,
        }
        .text()
    }
}

/// How many calls lists have, and how many of them are refused because version 1 is wanted of an image with a
/// count.
#[derive(Clone, Copy, Default)]
struct Tally {
    all: u64,
    lost: u64,
}

/// The panels that don't end with the number that they have to.
pub fn faults(panels: &[Panel]) -> Vec<String> {
    let mut faults = Vec::new();
    for panel in panels {
        let number = panel.unbroken(Runner::Plain).0.number;
        if panel.case.ends != Some(number) {
            faults.push(format!("{}: ends with {number}", panel.case.name));
        }
    }
    faults
}

/// How many panels there are of each kind, and of all panels the cuts, the drawn lists, their slices, and of both the refused calls, the
/// images that went by way of version 1 and those of which that was refused.
pub fn counts() -> Vec<Count> {
    let (mut cuts, mut drawn, mut old, mut lost) = (Vec::new(), Vec::new(), 0, 0);
    for panel in all() {
        for wanted in panel.counts_at_old() {
            old += usize::from(wanted == 0);
            lost += usize::from(wanted != 0);
        }
        cuts.extend(panel.cut_lists());
        drawn.extend(panel.drawn_lists());
    }
    let mut counts = counts_of("panels", &roms::KINDS);
    for (name, count) in [
        ("cuts", cuts.len()),
        ("lists", drawn.len()),
        ("slices", drawn.iter().flatten().count()),
        (
            "refused",
            list::refused(&cuts).len() + list::refused(&drawn).len() + lost,
        ),
        ("old", old),
        ("lost", lost),
    ] {
        counts.push((format!("lists/{name}"), count));
    }
    counts
}

/// A panel of few cycles.
pub fn small() -> Vec<Panel> {
    let mut panels = all();
    panels.retain(|panel| panel.case.cycles() <= 200);
    panels
}

#[derive(Clone, Copy, PartialEq, Eq, Debug)]
pub enum Kind {
    Cuts,
    Drawn,
}

impl Kind {
    fn word(self) -> &'static str {
        match self {
            Kind::Cuts => "cut at every cycle",
            Kind::Drawn => "drawn lists",
        }
    }
}

/// The unbroken call of a panel by a runner.
pub struct Unbroken(pub Panel, pub Runner);

impl Item for Unbroken {
    fn name(&self) -> String {
        format!("{}: unbroken, {:?}", self.0.case.name, self.1)
    }

    fn put(&self, stream: &mut Stream) -> String {
        let lent = self.0.whole(self.1);
        let (mut image, mut log, mut report) = (
            image_of(&lent.state, lent.sheet),
            lent.log.clone(),
            pattern(REPORT),
        );
        let runner = u64::from(self.1 == Runner::Skipping);
        self.0.put_lent(stream);
        stream.image(&image);
        stream.call(Of::Line, lent.n, runner, log.len(), REPORT);
        let number = call(
            &mut image,
            &lent.rom,
            &lent.schedule,
            &mut log,
            lent.n,
            runner,
            &mut report,
            lent.sheet,
        );
        call_line(number, &image, &log, &report)
    }

    fn show(&self) -> String {
        self.0.whole(self.1).told()
    }
}

/// Lists of the board's call.
pub struct Calls(pub Panel, pub Kind);

impl Item for Calls {
    fn name(&self) -> String {
        format!("{}: {}, by calls", self.0.case.name, self.1.word())
    }

    fn put(&self, stream: &mut Stream) -> String {
        let panel = &self.0;
        let start = image_of(&panel.case.start(), panel.sheet());
        panel.put_lent(stream);
        stream.image(&start);
        put_call(stream, Runner::Plain, panel.case.cycles());
        stream.remember_call();
        let lists = panel.lists(self.1);
        let counts = panel.counts();
        let mut calls = Tally::default();
        for slices in &lists {
            stream.image(&start);
            let mut done = 0;
            for slice in slices {
                put_call(stream, slice.runner, slice.cycles);
                done += slice.cycles as usize;
                calls.all += 1;
                if let Some(refused) = slice.refused {
                    put_refused_call(stream, panel, refused, slice.runner);
                    calls.all += 1;
                }
                if slice.old {
                    put_old_image(stream, counts[done], &mut calls);
                }
            }
            stream.end_calls();
        }
        stream.tell_panel();
        let (end, _) = panel.unbroken(Runner::Plain);
        panel.line(
            &lists,
            calls,
            digest(&image_of(&end.state, panel.sheet())),
            digest(&end.log),
        )
    }

    fn show(&self) -> String {
        shown(&self.0, &self.0.lists(self.1))
    }
}

/// The image by way of version 1, where its count allows it.
fn put_old_image(stream: &mut Stream, count: u8, calls: &mut Tally) {
    stream.convert(Of::List, 1, OLD);
    calls.all += 1;
    if count == 0 {
        stream.convert(Of::List, 2, IMAGE);
        calls.all += 1;
    } else {
        calls.lost += 1;
    }
}

/// The lists, and the unbroken run in full.
fn shown(panel: &Panel, lists: &[Vec<Slice>]) -> String {
    let mut text = String::from(
        "cycles, runner and refused call of each slice, `old` where version 1 is wanted\n",
    );
    for (place, slices) in lists.iter().enumerate() {
        text.push_str(&format!("list {place}:"));
        for Slice {
            cycles,
            runner,
            refused,
            old,
        } in slices
        {
            text.push_str(&format!(" {cycles} {runner:?}"));
            if let Some(refused) = refused {
                text.push_str(&format!(" {refused:?}"));
            }
            text.push_str(if *old { " old;" } else { ";" });
        }
        text.push('\n');
    }
    format!("{text}\n{}", panel.whole(Runner::Plain).told())
}

fn put_call(stream: &mut Stream, runner: Runner, n: u64) {
    let runner = u64::from(runner == Runner::Skipping);
    stream.call(Of::List, n, runner, lent_log(n).len(), REPORT);
}

fn put_refused_call(stream: &mut Stream, panel: &Panel, refused: Refused, runner: Runner) {
    let runner = u64::from(runner == Runner::Skipping);
    let call = |stream: &mut Stream, n, report| stream.call(Of::List, n, runner, 80, report);
    let length = panel.case.made_rom_bytes().len();
    match refused {
        Refused::Rom => {
            stream.rom_length(length - 1);
            call(stream, 9, REPORT);
            stream.rom_length(length);
        }
        Refused::Schedule => {
            stream.schedule_length(7);
            call(stream, 9, REPORT);
            stream.schedule_length(panel.case.made_schedule_bytes().len());
        }
        Refused::Buffer => call(stream, 9, REPORT - 1),
        Refused::Length => {
            stream.image_length(OLD - 1);
            call(stream, 9, REPORT);
            stream.image_length(IMAGE);
        }
        Refused::Cycles => call(stream, u64::MAX, REPORT),
        Refused::Sheet(place) => {
            stream.sheet(panel.wrong_sheet(place));
            match place % 2 {
                0 => call(stream, 9, REPORT),
                _ => stream.convert(Of::List, 2, IMAGE),
            }
            stream.sheet(panel.sheet());
        }
        Refused::OtherSheet => {
            stream.sheet(panel.other_sheet());
            call(stream, 9, REPORT);
            stream.sheet(panel.sheet());
        }
        Refused::Mark | Refused::Version | Refused::Field | Refused::Absent => {
            let (place, value) = refused.damage(panel.sheet()).expect("a byte is changed");
            stream.keep();
            stream.image_byte(place, value);
            call(stream, 9, REPORT);
            stream.bring_back();
        }
    }
}

/// Lists of runs, saves and restores.
pub struct Runs(pub Panel, pub Kind);

impl Item for Runs {
    fn name(&self) -> String {
        format!("{}: {}, by runs", self.0.case.name, self.1.word())
    }

    fn put(&self, stream: &mut Stream) -> String {
        let panel = &self.0;
        let n = panel.case.cycles();
        let room = lent_log(n).len();
        panel.put_lent(stream);
        stream.value(&panel.case.start());
        stream.keep();
        stream.begin_runs(room);
        stream.run(Of::List, n, Runner::Plain, room, 0);
        stream.remember_runs(room);
        let lists = panel.lists(self.1);
        let counts = panel.counts();
        let mut calls = Tally::default();
        for slices in &lists {
            stream.bring_back();
            stream.begin_runs(room);
            let mut done = 0;
            for slice in slices {
                stream.run(Of::List, slice.cycles, slice.runner, room, 0);
                done += slice.cycles as usize;
                calls.all += 1;
                if let Some(refused) = slice.refused {
                    calls.all += put_refused(stream, panel, refused, slice.runner, room);
                }
                put_kept(stream, slice.old, counts[done], &mut calls);
            }
            stream.end_runs(room);
        }
        stream.tell_panel();
        let (end, _) = panel.unbroken(Runner::Plain);
        let mut log = pattern(room);
        log[..end.log.len()].copy_from_slice(&end.log);
        let state = digest(&state_bytes(&end.state));
        panel.line(&lists, calls, state, digest(&log))
    }

    fn show(&self) -> String {
        shown(&self.0, &self.0.lists(self.1))
    }
}

/// A save and a restore, of version 1 where that is wanted and the count allows it.
fn put_kept(stream: &mut Stream, old: bool, count: u8, calls: &mut Tally) {
    if old {
        stream.save(Of::List, Version::One, OLD);
        calls.all += 1;
        if count == 0 {
            stream.restore(Of::List, OLD);
            calls.all += 1;
            return;
        }
        calls.lost += 1;
    }
    stream.save(Of::List, Version::Two, IMAGE);
    stream.restore(Of::List, IMAGE);
    calls.all += 2;
}

/// How many calls it takes.
fn put_refused(
    stream: &mut Stream,
    panel: &Panel,
    refused: Refused,
    runner: Runner,
    room: usize,
) -> u64 {
    match refused {
        Refused::Rom => {
            let length = panel.case.made_rom_bytes().len();
            stream.rom_length(length - 1);
            stream.run(Of::List, 9, runner, room, 0);
            stream.rom_length(length);
        }
        Refused::Schedule => {
            stream.schedule_length(7);
            stream.run(Of::List, 9, runner, room, 0);
            stream.schedule_length(panel.case.made_schedule_bytes().len());
        }
        Refused::Buffer => stream.save(Of::List, Version::Two, IMAGE - 1),
        Refused::Length => stream.restore(Of::List, OLD - 1),
        Refused::Cycles => stream.run(Of::List, u64::MAX, runner, room, 0),
        Refused::Sheet(place) => {
            stream.sheet(panel.wrong_sheet(place));
            match place % 3 {
                0 => stream.run(Of::List, 9, runner, room, 0),
                1 => stream.save(Of::List, Version::Two, IMAGE),
                _ => stream.restore(Of::List, IMAGE),
            }
            stream.sheet(panel.sheet());
        }
        Refused::OtherSheet => {
            stream.sheet(panel.other_sheet());
            stream.run(Of::List, 9, runner, room, 0);
            stream.sheet(panel.sheet());
        }
        Refused::Mark | Refused::Version | Refused::Field | Refused::Absent => {
            let (place, value) = refused.damage(panel.sheet()).expect("a byte is changed");
            stream.save(Of::List, Version::Two, IMAGE);
            stream.buffer_byte(place, value);
            stream.restore(Of::List, IMAGE);
            return 2;
        }
    }
    1
}

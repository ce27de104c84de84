//! The cases: a ROM, a schedule, a state, a log, n and a runner. Those with a sound state are calls on its
//! image too.

mod bench;
mod bounds;
mod codes;
mod drawn_sheets;
mod edges;
mod keys;
mod loads;
mod refusals;
mod resets;
mod roms;
mod sheets;
mod starts;
mod stops;
mod waits;

use reference::call::{call, REPORT};
use reference::case::{digest, state_bytes, Case};
use reference::codes::{always_skips, can_skip, is_none};
use reference::kinds::{all_of, counts_of, Count, Kind};
use reference::{run, save, Coverage, Runner, Sheet, Version};

use crate::stream::{pattern, Chain, Of, Stream};
use crate::Item;

/// A runner's number at every width that the call has to look at.
const SKIPPING: [u64; 6] = [1, 2, 256, 1 << 32, 1 << 63, u64::MAX];

/// The kinds of cases.
const KINDS: [Kind<Case>; 10] = [
    ("codes", codes::cases),
    ("bench", bench::cases),
    ("edges", edges::cases),
    ("waits", waits::cases),
    ("starts", starts::cases),
    ("stops", stops::cases),
    ("refusals", refusals::cases),
    ("roms", roms::cases),
    ("keys", keys::cases),
    ("loads", loads::cases),
];

/// Kinds that were added. The call of a case hangs on its place (`Call::of`), so each stands behind the others, on both runners, and
/// changes no line of theirs.
const ADDED: [Kind<Case>; 4] = [
    ("bounds", bounds::cases),
    ("resets", resets::cases),
    ("sheets", sheets::cases),
    ("drawn_sheets", drawn_sheets::cases),
];

fn on_both(mut cases: Vec<Case>) -> Vec<Case> {
    let skipping: Vec<Case> = cases.iter().map(Case::skipping).collect();
    cases.extend(skipping);
    cases
}

/// Each case on both runners.
pub fn all() -> Vec<Case> {
    let mut cases = on_both(all_of(&KINDS));
    for (_, make) in ADDED {
        cases.extend(on_both(make()));
    }
    cases
}

/// How many cases there are of each kind, on one runner; and how many of them have a state that is sound.
pub fn counts() -> Vec<Count> {
    let kinds: Vec<Kind<Case>> = KINDS.into_iter().chain(ADDED).collect();
    let cases = all_of(&kinds).into_iter().enumerate();
    let sound = cases.filter_map(|(place, case)| Call::of(place, case));
    let mut counts = counts_of("cases", &kinds);
    counts.push((String::from("cases/sound"), sound.count()));
    counts
}

/// The bench cases of few bytes, and some of smaller chips.
pub fn small() -> Vec<Case> {
    let mut cases = on_both(bench::cases());
    cases.extend(on_both(sheets::few()));
    let few = |bytes: Vec<u8>| bytes.iter().skip(0x40).all(|&byte| byte == 0);
    cases.retain(|case| few(case.made_rom_bytes()) && few(case.made_schedule_bytes()));
    cases
}

/// What is wrong with the cases: each ends with the number that it has to, each number is there, and
/// each code is executed.
pub fn faults(cases: &[Case]) -> Vec<String> {
    let mut coverage = Coverage::new();
    let mut faults = Vec::new();
    let mut numbers = Vec::new();
    let mut spared = 0;
    for case in cases {
        let (answer, _) = case.run(&mut coverage);
        if case.ends.is_some_and(|number| number != answer.number) {
            faults.push(format!("{}: ends with {}", case.name, answer.number));
        }
        numbers.push(answer.number);
        spared += answer.cycles - answer.steps;
    }
    for number in [0, 2, 3, 11, 12, 13, 14, 21, 22, 23, 34, 71] {
        if !numbers.contains(&number) {
            faults.push(format!("no case ends with {number}"));
        }
    }
    if spared == 0 {
        faults.push(String::from("no case jumps"));
    }
    faults.extend(uncovered(&coverage));
    faults
}

/// Every code has to be executed, without a skip and, where it can, with one.
fn uncovered(coverage: &Coverage) -> Vec<String> {
    let mut faults = Vec::new();
    for code in 0..=255_u8 {
        let plain = coverage.plain[usize::from(code)];
        let skipped = coverage.skipped[usize::from(code)];
        if (plain > 0) == (is_none(code) || always_skips(code)) {
            faults.push(format!("{code:02X} without a skip: {plain} times"));
        }
        if (skipped > 0) != can_skip(code) {
            faults.push(format!("{code:02X} with a skip: {skipped} times"));
        }
    }
    faults
}

/// A run of the state as a value.
pub struct Run(pub Case);

impl Item for Run {
    fn name(&self) -> String {
        self.0.name.clone()
    }

    fn put(&self, stream: &mut Stream) -> String {
        let lent = self.0.lent();
        stream.sheet(lent.sheet);
        stream.rom(&lent.rom);
        stream.schedule(&lent.schedule);
        stream.value(&lent.state);
        stream.run(Of::Line, lent.n, lent.runner, lent.log.len(), 0);
        let (answer, log) = lent.run();
        format!(
            "{} {} {} {} {} {} {} {}\n",
            answer.number,
            answer.cycles,
            answer.clocks,
            answer.begun,
            answer.written,
            answer.steps,
            digest(&state_bytes(&answer.state)),
            digest(&log),
        )
    }

    fn show(&self) -> String {
        self.0.lent().told()
    }
}

/// Runs on the part of a log from each place on, also behind its end, where that part is empty; one behind
/// the other, so that each begins where the one before it ended.
pub struct Places(pub Runner);

impl Item for Places {
    fn name(&self) -> String {
        format!("a log from every place on, {:?}", self.0)
    }

    fn put(&self, stream: &mut Stream) -> String {
        // OCD, INC, NOP, OE, JCP 000.
        let case = Case::new("").rom(0, &[0x1E, 0x96, 0x0D, 0x00, 0x44, 0xC0]);
        let lent = case.lent();
        stream.sheet(lent.sheet);
        stream.rom(&lent.rom);
        stream.schedule(&lent.schedule);
        stream.value(&lent.state);
        let mut chain = Chain::default();
        let mut state = lent.state;
        for place in 0..=80 {
            let mut log = pattern(64);
            let part = &mut log[place.min(64)..];
            let (rom, schedule, sheet) = (&lent.rom, &lent.schedule, lent.sheet);
            let answer = run(self.0, rom, schedule, &state, part, 9, sheet);
            stream.run(Of::Group, 9, self.0, 64, place);
            chain.called(answer.number);
            for count in [answer.cycles, answer.clocks, answer.begun] {
                chain.number(count);
            }
            chain.number(answer.written as u64);
            chain.number(answer.steps);
            chain.bytes(&state_bytes(&answer.state));
            chain.bytes(&log);
            state = answer.state;
        }
        stream.tell_group();
        chain.line()
    }

    fn show(&self) -> String {
        String::from("runs of 9 cycles, of a panel that writes in most of them, on a log of 64 bytes from the places 0 to 80 on\n")
    }
}

/// A call on the image of the state; there is none for a state that is refused. The report has some bytes
/// more than it needs.
pub struct Call {
    case: Case,
    image: Vec<u8>,
    runner: u64,
    report: usize,
}

impl Call {
    pub fn of(place: usize, case: Case) -> Option<Call> {
        let mut image = vec![0; Version::Two.length()];
        let lent = case.lent();
        // Under a sheet that is refused there is an image still, that of the uPD546.
        let sheet = if lent.sheet.is_legal() {
            lent.sheet
        } else {
            Sheet::UPD546
        };
        if save(Version::Two, &lent.state, &mut image, sheet) != 0 {
            return None;
        }
        let runner = match lent.runner {
            Runner::Plain => 0,
            Runner::Skipping => SKIPPING[place % SKIPPING.len()],
        };
        Some(Call {
            case,
            image,
            runner,
            report: REPORT + place % 17,
        })
    }
}

impl Item for Call {
    fn name(&self) -> String {
        self.case.name.clone()
    }

    fn put(&self, stream: &mut Stream) -> String {
        let lent = self.case.lent();
        stream.sheet(lent.sheet);
        stream.rom(&lent.rom);
        stream.schedule(&lent.schedule);
        stream.image(&self.image);
        stream.call(Of::Line, lent.n, self.runner, lent.log.len(), self.report);
        let (mut image, mut log, mut report) =
            (self.image.clone(), lent.log.clone(), pattern(self.report));
        let number = call(
            &mut image,
            &lent.rom,
            &lent.schedule,
            &mut log,
            lent.n,
            self.runner,
            &mut report,
            lent.sheet,
        );
        call_line(number, &image, &log, &report)
    }

    fn show(&self) -> String {
        format!(
            "on its image, by runner {}, with a report of {} bytes\n\n{}",
            self.runner,
            self.report,
            self.case.lent().told()
        )
    }
}

/// A call's line: what isn't there of a report reads 0.
pub fn call_line(number: u8, image: &[u8], log: &[u8], report: &[u8]) -> String {
    let count = |at: usize| {
        (at..at + 8).fold(0, |n: u64, place| {
            n << 8 | u64::from(report.get(place).copied().unwrap_or(0))
        })
    };
    format!(
        "{number} {} {} {} {} {} {} {}\n",
        count(0),
        count(8),
        count(16),
        count(24),
        digest(image),
        digest(log),
        digest(report),
    )
}

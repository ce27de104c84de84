//! Request R-12, "The shortest schedule that still stops", sentence by sentence.

use reference::asking::{asking, questions, rows, values_from, ASKS};
use reference::case::highest;
use reference::maker::sample;
use reference::sheets::{legal, wrong, HALF};
use reference::shortest::{shortest, shortest_of_image, FOUND};
use reference::{run, Runner, Sheet, State, Version};

use crate::common::{any_panel, lines, record, rom, save, schedule, Draw, LAST_CYCLE};

const UPD546: Sheet = Sheet::UPD546;
const N: u64 = 60;

/// All that a search is given.
#[derive(Clone)]
struct Given {
    rom: Vec<u8>,
    schedule: Vec<u8>,
    state: State,
    n: u64,
    log: Vec<u8>,
    sheet: Sheet,
}

impl Given {
    /// From the fresh state, with a log of 16n bytes.
    fn new(code: &[u8], schedule: Vec<u8>, n: u64) -> Given {
        Given {
            rom: rom(&[(0, code)]),
            schedule,
            state: State::fresh(),
            n,
            log: vec![7; 16 * n as usize],
            sheet: UPD546,
        }
    }

    fn with(&self, change: impl FnOnce(&mut Given)) -> Given {
        let mut given = self.clone();
        change(&mut given);
        given
    }

    fn records(&self) -> usize {
        self.schedule.len() / 10
    }

    /// The number, and k.
    fn found(&self) -> (u8, usize) {
        self.clone().search()
    }

    fn search(&mut self) -> (u8, usize) {
        let Given {
            rom,
            schedule,
            state,
            n,
            log,
            sheet,
        } = self;
        shortest(rom, schedule, state, *n, log, *sheet)
    }

    /// How the plain run with only the first k records ends: its number, and in which cycle.
    fn trial(&self, k: usize) -> (u8, u64) {
        let kept = &self.schedule[..10 * k];
        let mut log = vec![0; 16 * self.n as usize];
        let runner = Runner::Plain;
        let answer = run(
            runner,
            &self.rom,
            kept,
            &self.state,
            &mut log,
            self.n,
            self.sheet,
        );
        (answer.number, answer.state.cycle)
    }

    /// It is refused with this number, k is 0, and the whole log stays.
    fn is_refused(&self, number: u8) {
        let mut given = self.clone();
        assert_eq!(given.search(), (number, 0));
        assert_eq!(given.log, self.log);
    }

    fn image(&self) -> Vec<u8> {
        let mut image = vec![0; 82];
        assert_eq!(save(Version::Two, &self.state, &mut image), 0);
        image
    }
}

/// Port A finishes with 0, stops with 23 for 1, with 22 for 2.
const ENDS: [u8; 4] = [0, 23, 22, 23];

fn asked(ends: [u8; 4], values: &[u8]) -> Given {
    Given::new(&asking(ends), values_from(0, values), N)
}

/// TPB 0, JCP 000 and a code that is none: it asks bit 0 of A in every second cycle, and halts when that is 1.
const POLL: [u8; 3] = [0x50, 0xC0, 0x1C];

/// "find the smallest k such that the plain run with only the first k records stops with the same number as with all of them"
#[test]
fn the_smallest_k() {
    assert_eq!(asked(ENDS, &[1]).found(), (23, 1));
    assert_eq!(asked(ENDS, &[0, 0, 1, 1, 1]).found(), (23, 3));
    assert_eq!(asked(ENDS, &[0, 0, 0, 0, 2]).found(), (22, 5));
    // The panel that halts, whose records are counted in samples/make.
    let halt = sample("halt.panel");
    let mut given = Given::new(&halt[4..2_004], halt[2_004..].to_vec(), 6_000);
    assert_eq!(given.found(), (23, 7));
    // "and the answer is k with that number": these k are found again, and with one record less nothing stops.
    given.schedule.truncate(70);
    assert_eq!(given.found(), (23, 7));
    given.schedule.truncate(60);
    assert_eq!(given.found(), (82, 0));
}

/// "Every smaller k finishes or stops otherwise"
#[test]
fn a_smaller_k_may_stop_otherwise() {
    assert_eq!(asked(ENDS, &[2, 0, 2, 1]).found(), (23, 4));
    assert_eq!(asked(ENDS, &[1, 2, 1, 2]).found(), (22, 2));
    assert_eq!(asked([22, 23, 0, 0], &[2, 1]).found(), (23, 2));
}

/// It isn't monotone: with k records it stops, with one more it goes round, with two more it stops again.
#[test]
fn a_larger_k_may_finish() {
    assert_eq!(asked([23, 0, 22, 0], &[1, 0]).found(), (23, 0));
    assert_eq!(asked(ENDS, &[0, 1, 0, 0, 0, 0, 0, 1]).found(), (23, 2));
    assert_eq!(asked(ENDS, &[0, 0, 2, 0, 1, 0, 2]).found(), (22, 3));
    let again = sample("again.panel");
    let given = Given::new(&again[4..2_004], again[2_004..].to_vec(), 200);
    let ends = [0, 1, 2].map(|k| given.trial(k).0);
    assert_eq!(ends, [23, 0, 23]);
    assert_eq!(given.found(), (23, 0));
}

/// Every row of up to five records: what each k comes to is told, and so is the first that comes to the last one's.
#[test]
fn every_row_of_ends() {
    for ends in [ENDS, [22, 23, 0, 0], [23, 0, 22, 0]] {
        for length in 0..=5 {
            for values in rows(length, 3) {
                let due: Vec<u8> = [0]
                    .iter()
                    .chain(&values)
                    .map(|&value| ends[usize::from(value)])
                    .collect();
                let last = due[length];
                let first = due.iter().position(|&end| end == last);
                let answer = if last == 0 {
                    (82, 0)
                } else {
                    (last, first.expect("the last one"))
                };
                assert_eq!(asked(ends, &values).found(), answer, "{ends:?} {values:?}");
            }
        }
    }
}

/// Only the number is the same: cycle and address of the stop may be others.
#[test]
fn the_stop_may_be_elsewhere() {
    // TPA 0, JCP 010, TPA 1, JCP 000 and 1C; at 010 code 45.
    let mut code = vec![0x54, 0xD0, 0x55, 0xC0, 0x1C];
    code.resize(0x10, 0);
    code.push(0x45);
    let given = Given::new(&code, schedule(&[(0, 0x10, 0, 1), (30, 0x30, 0, 1)]), N);
    assert_eq!((given.trial(0), given.trial(1).0), ((23, 3), 0));
    assert!(given.trial(2).1 > 30);
    assert_eq!(given.found(), (23, 0));
    // The same address, later: of two pulses the first is over before it is seen, where the second record is kept.
    let given = Given::new(
        &POLL,
        schedule(&[(9, 0x10, 0, 1), (10, 0, 0, 1), (20, 0x10, 0, 1)]),
        N,
    );
    let ends = [1, 2, 3].map(|k| given.trial(k));
    assert_eq!(ends, [(23, 12), (0, N), (23, 22)]);
    assert_eq!(given.found(), (23, 1));
}

/// k is 0 where no record matters, which is an answer: its number is the stop's. It is at most the number of records.
#[test]
fn no_record_may_matter() {
    for (end, values) in [(23, &[][..]), (22, &[]), (23, &[0, 0]), (22, &[1, 3, 0])] {
        assert_eq!(asked([end, 0, 0, 0], values).found(), (end, 0));
    }
    // Records after the stop.
    let mut given = asked([23, 0, 0, 0], &[]);
    given.schedule = values_from(ASKS + 9, &[1, 1, 1]);
    assert_eq!(given.found(), (23, 0));
    // All of 4,096.
    let many: Vec<u8> = (0..4_096).map(|k| u8::from(k == 4_095)).collect();
    let given = Given::new(&POLL, values_from(0, &many), 4_100);
    assert_eq!(given.found(), (23, 4_096));
}

/// "Errors: after the run's own refusals, 81 the log is shorter than that; 82 the full run finishes." R-11: "71, before all else". "With any
/// of them k is 0."
#[test]
fn errors_in_their_order() {
    type Change = fn(&mut Given);
    let faults: [(u8, Change); 9] = [
        (82, |given| given.schedule.extend(record(ASKS - 1, 0, 0, 1))),
        (81, |given| given.log.truncate(16 * N as usize - 1)),
        (2, |given| given.state.cycle = LAST_CYCLE - N + 1),
        (34, |given| given.state.acc = 16),
        (14, |given| given.schedule.extend([0; 10])),
        (13, |given| given.schedule[8] = 2),
        (11, |given| given.schedule.push(0)),
        (12, |given| given.schedule.resize(40_961, 0)),
        (21, |given| given.rom.push(0)),
    ];
    let sound = asked(ENDS, &[0, 1]);
    assert_eq!(sound.found(), (23, 2));
    let mut all = sound.clone();
    for (number, change) in faults {
        let alone = sound.with(change);
        assert_eq!(alone.found(), (number, 0));
        // With all those that come after it.
        change(&mut all);
        assert_eq!(all.found(), (number, 0));
    }
    for sheet in wrong(UPD546) {
        all.sheet = sheet;
        all.is_refused(71);
        sound.with(|given| given.sheet = sheet).is_refused(71);
    }
}

/// "Each trial is lent a log of 16n bytes": 81 also where the run would write nothing.
#[test]
fn a_log_of_16_bytes_a_cycle() {
    for n in [1, 2, 17, N] {
        // The first stops at once, the second finishes.
        for (code, due) in [(&[0x1C][..], 23), (&[0xC0], 82)] {
            let given = Given::new(code, values_from(0, &[1, 2]), n);
            for length in 0..16 * n as usize {
                given
                    .with(|given| given.log.truncate(length))
                    .is_refused(81);
            }
            for length in [0, 1, 8, 15, 16, 500] {
                assert_eq!(
                    given
                        .with(|given| given.log.resize(16 * n as usize + length, 7))
                        .found(),
                    (due, 0)
                );
            }
        }
    }
    // As many cycles as may be done: 16n has 52 bits, and none of them is lost.
    for n in [1 << 44, 1 << 47, LAST_CYCLE] {
        let given = Given::new(&POLL, Vec::new(), 0);
        given.with(|given| given.n = n).is_refused(81);
        given.with(|given| given.n = n + (1 << 60)).is_refused(2);
    }
}

/// "82 the full run finishes", whatever smaller k would do.
#[test]
fn a_full_run_that_finishes() {
    assert_eq!(asked(ENDS, &[1, 0]).found(), (82, 0));
    assert_eq!(asked([23, 0, 0, 0], &[2]).found(), (82, 0));
    assert_eq!(asked([0; 4], &[]).found(), (82, 0));
    // n = 0, also where the first cycle would stop, and with no log.
    assert_eq!(Given::new(&[0x1C], Vec::new(), 0).found(), (82, 0));
    assert_eq!(
        Given::new(&[0x1C], values_from(0, &[1]), 0).found(),
        (82, 0)
    );
}

/// A stop "isn't begun": n cycles stop there only where n is above its cycle. A trial that would stop later finishes.
#[test]
fn n_around_the_stop() {
    let given = asked(ENDS, &[0, 1]);
    // TPA and its skip of one byte, TPA and JCP.
    let stop = ASKS + 2 + 1 + 2 + 1;
    assert_eq!(given.trial(2), (23, stop));
    for n in 0..N {
        let given = Given { n, ..given.clone() };
        assert_eq!(given.found(), if n > stop { (23, 2) } else { (82, 0) });
    }
    // STM 1 and a wait on the timer for bit 0, at once for bit 1 too: the first record is enough where n is so large.
    let mut code = vec![0x54, 0xC0, 0x55, 0xC8, 0x1C, 0, 0, 0];
    code.extend([0x14, 0x81, 0x05, 0xCA, 0x45]);
    let given = Given::new(&code, schedule(&[(0, 0x10, 0, 1), (1, 0x30, 0, 1)]), 400);
    let [(one, late), (both, soon)] = [given.trial(1), given.trial(2)];
    assert!((one, both) == (23, 23) && late > soon + 40);
    for (n, due) in [
        (late + 1, (23, 1)),
        (late, (23, 2)),
        (soon + 1, (23, 2)),
        (soon, (82, 0)),
    ] {
        assert_eq!(Given { n, ..given.clone() }.found(), due);
    }
}

/// Records before the state's cycle count as records, and dropping the last of them changes the lines at once.
#[test]
fn records_before_the_panel() {
    let state = State {
        cycle: 1_000,
        ..State::fresh()
    };
    for (values, due) in [
        (&[0, 1][..], (23, 2)),
        (&[1, 0, 0, 1], (23, 1)),
        (&[0, 2, 1, 0, 2, 1], (23, 3)),
        (&[1, 0], (82, 0)),
        (&[0, 0, 0, 2], (22, 4)),
    ] {
        for first in [0, 1, 900, 1_000 - values.len() as u64, 999, 1_000, 1_010] {
            let given = asked(ENDS, &[]).with(|given| {
                given.state = state.clone();
                given.schedule = values_from(first, values);
            });
            assert_eq!(given.found(), due, "{values:?} from {first}");
        }
    }
    // Of the records before it the last one holds; in its own cycle the panel sees both.
    let poll = Given::new(
        &POLL,
        schedule(&[(998, 0x10, 0, 1), (999, 0, 0, 1), (1_000, 0x10, 0, 1)]),
        N,
    );
    assert_eq!(poll.with(|given| given.state = state).found(), (23, 1));
    assert_eq!(poll.found(), (82, 0));
}

/// The lines of the last record that is kept stay to the end, RES too.
#[test]
fn resets_among_the_records() {
    let given = |records: &[(u64, u8, u8, u8, u8)]| Given::new(&POLL, lines(records), N).found();
    // A panel that stays reset finishes; when RES goes it reads the button.
    assert_eq!(
        given(&[(5, 0, 0, 1, 1), (20, 0x10, 0, 1, 1), (40, 0x10, 0, 1, 0)]),
        (23, 3)
    );
    assert_eq!(given(&[(5, 0, 0, 1, 1), (20, 0x10, 0, 1, 1)]), (82, 0));
    // Three cycles of RES reset nothing: the button stops the panel in them.
    assert_eq!(given(&[(8, 0x10, 0, 1, 1), (11, 0x10, 0, 1, 0)]), (23, 1));
    // 22 of field 7, out of which a reset brings the panel: EI, DI and so on up to JMP 7FF; then the button.
    let mut code = vec![0x54, 0xC8, 0x1C];
    code.resize(8, 0);
    code.resize(40, 0);
    code.extend([0xA7, 0xFF]);
    let reset = lines(&[(20, 0x10, 0, 1, 1), (30, 0x10, 0, 1, 0), (35, 0, 0, 1, 0)]);
    let given = Given::new(&code, reset, N);
    let ends = [0, 1, 2, 3].map(|k| given.trial(k).0);
    assert_eq!(ends, [22, 0, 23, 23]);
    assert_eq!(given.found(), (23, 2));
    // A count that the state brings along: one more cycle of RES resets it, and the panel is never asked.
    let held = asked([23, 0, 0, 0], &[])
        .with(|given| given.schedule = lines(&[(0, 0, 0, 1, 1), (1, 0, 0, 1, 0)]));
    for count in 0..=4 {
        let counted = held.with(|given| {
            given.state = State {
                count,
                pc: ASKS as u16 + 24,
                ..State::fresh()
            }
        });
        assert_eq!(counted.found(), (23, 0), "{count}");
        let (number, cycle) = counted.trial(2);
        assert_eq!((number, cycle > ASKS), (23, count >= 3));
    }
}

/// "a log of 16n bytes, whose bytes afterwards are free, also on 82": those past them stay. After another error all of it stays.
#[test]
fn what_is_left_of_the_log() {
    // OCD over and over, until the button is pressed.
    let code = [0x1E, 0xA5, 0x54, 0xC0, 0x1C];
    let room = 16 * N as usize;
    for (records, due) in [(&[][..], (82, 0)), (&[(30, 0x10, 0, 1)], (23, 1))] {
        let mut given = Given::new(&code, schedule(records), N);
        given.log = (0..room + 100)
            .map(|place| (7 * place + 13) as u8)
            .collect();
        let before = given.log.clone();
        assert_eq!(given.search(), due);
        assert_eq!(given.log[room..], before[room..]);
        assert_ne!(given.log, before);
        given.log.truncate(room - 1);
        given.is_refused(81);
        given.sheet.levels = 0;
        given.is_refused(71);
        given.sheet.levels = 1;
        given.rom.push(0);
        given.is_refused(21);
    }
}

/// With 16n bytes no trial stops with 3, also where resets cut OCD short: the number is 82, 22 or 23.
#[test]
fn no_trial_lacks_a_log() {
    // OCD, JCP 000: of its cycles a reset leaves the first alone.
    let code = [0x1E, 0xA5, 0xC0];
    let mut records = Vec::new();
    for cycle in 0..40 {
        records.push((5 * cycle, 0, 0, 1, 1));
        records.push((5 * cycle + 4, 0, 0, 1, 0));
    }
    let given = Given::new(&code, lines(&records), 200);
    assert_eq!(given.found(), (82, 0));
    for k in 0..=given.records() {
        assert_eq!(given.trial(k).0, 0);
    }
    // LI and OE in every cycle but the jump's.
    assert_eq!(
        Given::new(&[0x44, 0x44, 0x44, 0xC0], Vec::new(), 300).found(),
        (82, 0)
    );
}

/// Drawn panels: the answer is the sentence, read by runs one by one.
#[test]
fn drawn_panels() {
    let mut draw = Draw::new(12);
    let (mut between, mut again, mut all, mut finished) = (0, 0, 0, 0);
    for _ in 0..1_500 {
        let (rom, schedule, state) = any_panel(&mut draw);
        let state = State {
            pc: state.pc % 64,
            ..state
        };
        let n = draw.below(400);
        let given = Given {
            rom: [questions(&mut draw), rom[64..].to_vec()].concat(),
            state,
            ..Given::new(&[], schedule, n)
        };
        let ends: Vec<u8> = (0..=given.records()).map(|k| given.trial(k).0).collect();
        let (number, k) = given.found();
        let last = ends[given.records()];
        if last == 0 {
            assert_eq!((number, k), (82, 0));
            finished += 1;
            continue;
        }
        assert_eq!((number, ends[k]), (last, last));
        assert!(ends[..k].iter().all(|&end| end != last));
        between += usize::from(0 < k && k < given.records());
        all += usize::from(k > 0 && k == given.records());
        again += usize::from(ends[k..].iter().any(|&end| end != last));
        // Of the first k records the answer is the same.
        let kept = given.with(|given| given.schedule.truncate(10 * k));
        assert_eq!(kept.found(), (number, k));
    }
    assert!(
        between > 60 && again > 30 && all > 5 && finished > 300,
        "{between} {again} {all} {finished}"
    );
}

/// a sheet's last address in place of 7CF, its length in place of 2,000, and what it hasn't is 34.
#[test]
fn smaller_sheets() {
    for sheet in legal().into_iter().filter(|sheet| sheet.rom >= 64) {
        let given = asked(ENDS, &[2, 0, 1]).with(|given| {
            given.sheet = sheet;
            given.rom.truncate(sheet.rom as usize);
        });
        assert_eq!(given.found(), (23, 3), "{sheet:?}");
        given.with(|given| given.rom.push(0)).is_refused(21);
        if sheet.rows < 31 || sheet.levels < 3 {
            given
                .with(|given| {
                    given.state = State {
                        cycle: 0,
                        ..highest()
                    }
                })
                .is_refused(34);
        }
        given.with(|given| given.log.truncate(3)).is_refused(81);
    }
    // A byte that the small chip lacks and the large one has: JMP 3E8 to a 1C.
    let code = [0x54, 0xC0, 0xA3, 0xE8];
    let given = Given::new(&code, values_from(3, &[0, 1, 1]), N);
    let large = given.with(|given| given.rom[1_000] = 0x1C);
    assert_eq!(large.found(), (23, 2));
    let half = given.with(|given| {
        given.sheet = HALF;
        given.rom.truncate(1_000);
    });
    assert_eq!(half.found(), (22, 2));
    // Two levels: the third call back leads elsewhere than with three. CAL 010, CAL 020, CAL 030, RT there, and 1C behind the first one.
    let deep = rom(&[
        (0, &[0xA8, 0x10, 0x1C]),
        (0x10, &[0xA8, 0x20, 0x48]),
        (0x20, &[0xA8, 0x30, 0x48]),
        (0x30, &[0x48]),
    ]);
    let three = Given::new(&deep[..64], Vec::new(), N);
    assert_eq!(three.found(), (23, 0));
    let two = three.with(|given| given.sheet.levels = 2);
    assert_eq!(two.found(), (82, 0));
}

/// For C: k as 8 bytes, big-endian; the state comes from an image, which stays, and bytes past the 8 stay.
#[test]
fn from_an_image() {
    let many: Vec<u8> = (0..300).map(|k| u8::from(k == 299)).collect();
    let given = Given::new(&POLL, values_from(0, &many), 400);
    let (image, mut log) = (given.image(), given.log.clone());
    for length in [8, 9, 40] {
        let mut found = vec![9; length];
        let n = given.n;
        let number = shortest_of_image(
            &image,
            &given.rom,
            &given.schedule,
            n,
            &mut log,
            &mut found,
            UPD546,
        );
        assert_eq!(number, 23);
        assert_eq!(found[..FOUND], [0, 0, 0, 0, 0, 0, 1, 44]);
        assert!(found[FOUND..].iter().all(|&byte| byte == 9));
    }
    // Zeros with any number that isn't the stop's.
    let mut found = [9; 10];
    let number = shortest_of_image(
        &image,
        &given.rom,
        &given.schedule,
        10,
        &mut log,
        &mut found,
        UPD546,
    );
    assert_eq!((number, found), (82, [0, 0, 0, 0, 0, 0, 0, 0, 9, 9]));
}

/// A buffer under 8 bytes is 1, before all else, and isn't written; then 71, the image's refusals, the run's, 81, 82.
#[test]
fn errors_of_an_image_come_first() {
    let given = asked(ENDS, &[0, 1]);
    let image = given.image();
    let mut torn = image.clone();
    torn[0] = b'u';
    let mut other = image.clone();
    other[4] = 1;
    let mut field = image.clone();
    field[23] = 16;
    let bad = Sheet {
        levels: 4,
        ..UPD546
    };
    let no_rom: &[u8] = &[];
    for (number, image, rom, log, sheet) in [
        (23, &image[..], &given.rom[..], given.log.len(), UPD546),
        (81, &image, &given.rom, given.log.len() - 1, UPD546),
        (21, &image, no_rom, 0, UPD546),
        (34, &field, no_rom, 0, UPD546),
        (33, &other, no_rom, 0, UPD546),
        (32, &torn, no_rom, 0, UPD546),
        (31, &image[..81], no_rom, 0, UPD546),
        (31, &[], no_rom, 0, UPD546),
        (71, &[], no_rom, 0, bad),
    ] {
        for length in 0..=10 {
            let (mut log, mut found) = (vec![7; log], vec![9; length]);
            let answer =
                shortest_of_image(image, rom, &given.schedule, N, &mut log, &mut found, sheet);
            let mut due = vec![9; length];
            if length >= FOUND {
                due[..FOUND].fill(0);
                due[FOUND - 1] = if number == 23 { 2 } else { 0 };
            }
            assert_eq!(
                (answer, found),
                (if length < FOUND { 1 } else { number }, due)
            );
            assert!(answer == 23 || log.iter().all(|&byte| byte == 7));
        }
    }
}

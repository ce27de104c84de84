//! Request R-3, "One call for the board": restore, run and save in one; the image that a panel begins
//! with; and the way from one version of an image to the other.

use crate::image::{restore, save, Version};
use crate::machine::State;
use crate::numbers::{FINISHED, IMAGE_LENGTH, IMAGE_VERSION, SHEET, SHORT_BUFFER};
use crate::runners::{run, Runner};
use crate::sheet::Sheet;

/// "8 bytes each, big-endian, to the first 32 bytes of a lent report".
const COUNT: usize = 8;
pub const REPORT: usize = 32;

/// The call. "It answers the run's number"; "image refusals come first, then the run's. A refusal
/// leaves the image; a finish or a stop rewrites it." R-8: it "takes 82 bytes only, else 31". R-11: "71, before all else
/// but R-3's report under 32 bytes".
#[allow(clippy::too_many_arguments)]
pub fn call(
    image: &mut [u8],
    rom: &[u8],
    schedule: &[u8],
    log: &mut [u8],
    n: u64,
    runner: u64,
    report: &mut [u8],
    sheet: Sheet,
) -> u8 {
    // "A report under 32 bytes is 1, before all else, and is not written."
    let Some(report) = report.get_mut(..REPORT) else {
        return SHORT_BUFFER;
    };
    // "zeros on a refusal"
    report.fill(0);
    let state = match panel(image, sheet) {
        Ok(state) => state,
        Err(number) => return number,
    };
    let answer = run(runner_of(runner), rom, schedule, &state, log, n, sheet);
    if answer.refused {
        return answer.number;
    }
    let written = answer.written as u64;
    let counts = [answer.cycles, answer.begun, written, answer.steps];
    for (place, count) in report.chunks_exact_mut(COUNT).zip(counts) {
        place.copy_from_slice(&count.to_be_bytes());
    }
    let saved = save(Version::Two, &answer.state, image, sheet);
    assert_eq!(saved, FINISHED, "the state that a run answers is saved");
    answer.number
}

/// The state of a board's image, which is one of version 2.
pub(crate) fn panel(image: &[u8], sheet: Sheet) -> Result<State, u8> {
    if !sheet.is_legal() {
        return Err(SHEET);
    }
    if image.len() != Version::Two.length() {
        return Err(IMAGE_LENGTH);
    }
    match restore(image, sheet) {
        (FINISHED, state) => Ok(state),
        (number, _) => Err(number),
    }
}

/// "a runner (0 plain, any other timer-skipping)".
fn runner_of(number: u64) -> Runner {
    match number {
        0 => Runner::Plain,
        _ => Runner::Skipping,
    }
}

/// The fresh state's image, for a panel that has none yet; it is one under every sheet. As with a save, a buffer
/// under 82 bytes is 1 and is left, and bytes past the image are kept.
pub fn fresh(image: &mut [u8]) -> u8 {
    save(Version::Two, &State::fresh(), image, Sheet::UPD546)
}

/// The image of the same state in the version wanted, for boards that hold version 1 images: restore's
/// numbers, 33 for a version that is neither 1 nor 2, then those of a save.
pub fn convert(from: &[u8], to: &mut [u8], version: u64, sheet: Sheet) -> u8 {
    let (number, state) = restore(from, sheet);
    if number != FINISHED {
        return number;
    }
    match version {
        1 => save(Version::One, &state, to, sheet),
        2 => save(Version::Two, &state, to, sheet),
        _ => IMAGE_VERSION,
    }
}

#[cfg(test)]
mod tests {
    use super::*;
    use crate::case::{lines, record, schedule};
    use crate::draw::Draw;
    use crate::lent::Lent;
    use crate::maker::sample;
    use crate::numbers::*;

    /// Document 01's example: OCD, LI, OE and a code that is no instruction.
    const EXAMPLE: [u8; 5] = [0x1E, 0xA5, 0x93, 0x44, 0x1C];

    /// LDZ 5, STM 3, TTM, JCP 003, CMA, OP, JCP 001: port F is turned over when the timer has run out.
    const BLINK: [u8; 8] = [0x85, 0x14, 0x83, 0x05, 0xC3, 0x10, 0x0E, 0xC1];

    /// All that a call is given, in buffers that no call has written yet.
    #[derive(Clone, PartialEq, Debug)]
    struct Given {
        image: Vec<u8>,
        rom: Vec<u8>,
        schedule: Vec<u8>,
        log: Vec<u8>,
        n: u64,
        runner: u64,
        report: Vec<u8>,
        sheet: Sheet,
    }

    impl Given {
        fn of(code: &[u8]) -> Given {
            let mut rom = code.to_vec();
            rom.resize(2_000, 0);
            Given {
                image: image_of(&State::fresh()),
                rom,
                schedule: Vec::new(),
                log: vec![7; 100],
                n: 10,
                runner: 0,
                report: vec![9; 40],
                sheet: Sheet::UPD546,
            }
        }

        fn with(mut self, change: impl FnOnce(&mut Given)) -> Given {
            change(&mut self);
            self
        }

        fn call(&mut self) -> u8 {
            call(
                &mut self.image,
                &self.rom,
                &self.schedule,
                &mut self.log,
                self.n,
                self.runner,
                &mut self.report,
                self.sheet,
            )
        }

        fn counts(&self) -> [u64; 4] {
            let count = |at: usize| u64::from_be_bytes(self.report[at..at + 8].try_into().unwrap());
            [count(0), count(8), count(16), count(24)]
        }

        /// The call is refused with this number: image and log stay, the report has 32 zeros, and its
        /// other bytes stay.
        fn is_refused(&self, number: u8) {
            let mut after = self.clone();
            assert_eq!(after.call(), number);
            let mut due = self.clone();
            due.report[..32].fill(0);
            assert_eq!(after, due);
        }
    }

    fn image_of(state: &State) -> Vec<u8> {
        image_in(Version::Two, state)
    }

    fn image_in(version: Version, state: &State) -> Vec<u8> {
        let mut image = vec![0; version.length()];
        assert_eq!(save(version, state, &mut image, Sheet::UPD546), FINISHED);
        image
    }

    #[test]
    fn the_documents_example_in_two_calls() {
        let mut given = Given::of(&EXAMPLE).with(|given| given.n = 3);
        assert_eq!(given.call(), FINISHED);
        assert_eq!(given.counts(), [3, 2, 16, 3]);
        assert_eq!(
            given.log[..16],
            [0, 0, 0, 0, 0, 0, 2, 5, 0, 0, 0, 0, 0, 0, 3, 10]
        );
        assert_eq!(given.log[16..], [7; 84]);
        given.n = 7;
        assert_eq!(given.call(), NO_INSTRUCTION);
        assert_eq!(given.counts(), [2, 1, 8, 2]);
        assert_eq!(given.log[..8], [0, 0, 0, 0, 0, 3, 4, 3]);
        assert_eq!(given.report[32..], [9; 8]);
    }

    #[test]
    fn a_short_report_is_1_before_all_else_and_is_not_written() {
        for length in 0..32 {
            for image in [0, 80, 81, 82] {
                let given = Given::of(&EXAMPLE).with(|given| {
                    given.report.truncate(length);
                    given.image.truncate(image);
                    given.rom.truncate(7);
                    given.schedule = vec![0; 7];
                    given.n = u64::MAX;
                });
                let mut after = given.clone();
                assert_eq!(after.call(), SHORT_BUFFER);
                assert_eq!(after, given);
            }
        }
    }

    /// Every fault with all those that come after it: the first is answered.
    #[test]
    fn refusals_come_in_their_order() {
        let mut given = Given::of(&EXAMPLE).with(|given| given.n = u64::MAX);
        given.is_refused(CYCLE_LIMIT);
        given.schedule = [record(5, 0, 0, 1), record(5, 0, 0, 1), record(6, 0, 0, 2)].concat();
        given.is_refused(RECORD_CYCLE);
        given.schedule[18] = 2;
        given.is_refused(RECORD_BYTES);
        given.schedule.pop();
        given.is_refused(SCHEDULE_LENGTH);
        given.schedule.resize(40_961, 2);
        given.is_refused(SCHEDULE_LONG);
        given.rom.pop();
        given.is_refused(ROM_LENGTH);
        given.image[81] = 5;
        given.is_refused(FIELD);
        given.image[4] = 1;
        given.is_refused(IMAGE_VERSION);
        given.image[2] = b'4';
        given.is_refused(IMAGE_MARK);
        given.image.pop();
        given.is_refused(IMAGE_LENGTH);
    }

    #[test]
    fn an_image_of_another_length_is_31() {
        for length in [0, 1, 80, 81, 83, 164] {
            let given = Given::of(&EXAMPLE).with(|given| given.image.resize(length, 0));
            given.is_refused(IMAGE_LENGTH);
        }
        // A whole image of version 1 too, though a restore takes it; with one byte more it is 33.
        let mut given = Given::of(&EXAMPLE);
        given.image = image_in(Version::One, &State::fresh());
        given.is_refused(IMAGE_LENGTH);
        given.image.push(0);
        given.is_refused(IMAGE_VERSION);
    }

    #[test]
    fn a_rom_of_another_length_is_21() {
        for length in [0, 1_999, 2_001] {
            let given = Given::of(&EXAMPLE).with(|given| given.rom.resize(length, 0));
            given.is_refused(ROM_LENGTH);
        }
    }

    #[test]
    fn a_report_of_32_bytes_is_enough() {
        let mut given = Given::of(&EXAMPLE).with(|given| given.report.truncate(32));
        assert_eq!(given.call(), NO_INSTRUCTION);
        assert_eq!(given.counts(), [5, 3, 24, 5]);
    }

    /// A stop is no refusal: image, log and report are of its boundary.
    #[test]
    fn a_stop_rewrites_the_image() {
        // OCD needs 16 bytes; then OE needs 8.
        for (log, counts) in [(15, [0; 4]), (16, [3, 2, 16, 3]), (23, [3, 2, 16, 3])] {
            let mut given = Given::of(&EXAMPLE).with(|given| given.log.truncate(log));
            assert_eq!(given.call(), LOG_FULL);
            assert_eq!(given.counts(), counts);
            let mut due = Given::of(&EXAMPLE).with(|given| given.n = counts[0]);
            assert_eq!(due.call(), FINISHED);
            assert_eq!(given.image, due.image);
            // With a log it goes on from there.
            given.log = vec![0; 100];
            assert_eq!(given.call(), NO_INSTRUCTION);
            assert_eq!(given.counts()[0], 5 - counts[0]);
        }
        // JMP 7D0.
        let mut given = Given::of(&[0xA7, 0xD0]);
        assert_eq!(given.call(), ABOVE_ROM);
        assert_eq!(given.counts(), [2, 1, 0, 2]);
        assert_eq!(given.image[5..7], [0x07, 0xD0]);
    }

    #[test]
    fn no_cycle_finishes_and_keeps_the_images_bytes() {
        let mut draw = Draw::new(3);
        for runner in [0, 1] {
            for _ in 0..200 {
                let image = image_of(&draw.counted_state());
                let mut given = Given::of(&BLINK).with(|given| {
                    given.image = image.clone();
                    given.n = 0;
                    given.runner = runner;
                    given.log.clear();
                });
                assert_eq!(given.call(), FINISHED);
                assert_eq!(given.image, image);
                assert_eq!(given.counts(), [0; 4]);
            }
        }
        let refused = Given::of(&BLINK).with(|given| {
            given.n = 0;
            given.schedule = vec![0; 7];
        });
        refused.is_refused(SCHEDULE_LENGTH);
    }

    #[test]
    fn the_runner_is_judged_at_its_full_width() {
        let steps = |runner| {
            let mut given = Given::of(&BLINK).with(|given| {
                given.n = 300;
                given.runner = runner;
            });
            assert_eq!(given.call(), FINISHED);
            given.counts()
        };
        let plain = steps(0);
        assert_eq!(plain[3], 300);
        let skipping = steps(1);
        assert!(skipping[3] < 100);
        assert_eq!(plain[..3], skipping[..3]);
        for runner in [2, 256, 1 << 32, 1 << 63, u64::MAX] {
            assert_eq!(steps(runner), skipping);
        }
    }

    #[test]
    fn the_cycle_limit_is_judged_without_wrapping_around() {
        let last = (1 << 48) - 1;
        let at = |cycle, n| {
            Given::of(&[]).with(|given| {
                given.image = image_of(&State {
                    cycle,
                    ..State::fresh()
                });
                given.n = n;
            })
        };
        for (cycle, n) in [(last, 0), (last - 5, 5)] {
            let mut given = at(cycle, n);
            assert_eq!(given.call(), FINISHED);
            assert_eq!(given.image[75..81], [255; 6]);
        }
        for (cycle, n) in [
            (0, last + 1),
            (last, 1),
            (last - 5, 6),
            (last, u64::MAX - last),
            (last, u64::MAX - last + 1),
            (1, u64::MAX),
            (0, u64::MAX),
        ] {
            at(cycle, n).is_refused(CYCLE_LIMIT);
        }
    }

    /// On drawn states, ROMs, schedules and logs a call leaves what the three calls leave.
    #[test]
    fn a_call_is_restore_run_and_save() {
        let mut draw = Draw::new(17);
        let mut ended = [0; 256];
        for _ in 0..3_000 {
            let state = draw.counted_state();
            let mut given = Given::of(&[]).with(|given| {
                given.image = image_of(&state);
                given.rom.fill_with(|| draw.byte());
                given.schedule = if draw.one_in(2) {
                    schedule(&draw.records(state.cycle))
                } else {
                    lines(&draw.resets(state.cycle))
                };
                given.log = vec![7; draw.below(60) as usize];
                given.n = draw.below(40);
                given.runner = draw.below(2);
            });
            let mut log = given.log.clone();
            let runner = [Runner::Plain, Runner::Skipping][given.runner as usize];
            let (number, restored) = restore(&given.image, given.sheet);
            assert_eq!((number, &restored), (FINISHED, &state));
            let answer = run(
                runner,
                &given.rom,
                &given.schedule,
                &restored,
                &mut log,
                given.n,
                given.sheet,
            );
            assert_eq!(given.call(), answer.number);
            ended[usize::from(answer.number)] += 1;
            assert_eq!(given.log, log);
            assert_eq!(given.image, image_of(&answer.state));
            let written = answer.written as u64;
            assert_eq!(
                given.counts(),
                [answer.cycles, answer.begun, written, answer.steps]
            );
        }
        for number in [FINISHED, LOG_FULL, ABOVE_ROM, NO_INSTRUCTION] {
            assert!(ended[usize::from(number)] > 20, "{number}");
        }
    }

    /// Lists of the call on one image, refused ones among them, end as one call does.
    #[test]
    fn slices_on_one_image_end_as_one_call() {
        let pulse = lines(&[(37, 0, 0, 1, 1), (42, 0, 0, 1, 0)]);
        for (code, schedule, n) in [
            (&EXAMPLE[..], vec![], 10),
            (&BLINK[..], vec![], 600),
            (&BLINK[..], pulse, 300),
        ] {
            let mut whole = Given::of(code).with(|given| {
                given.n = n;
                given.log = vec![0; 16 * n as usize];
                given.schedule = schedule;
            });
            let number = whole.call();
            let [cycles, begun, written, _] = whole.counts();
            for slice in 1..n {
                let mut given =
                    Given::of(code).with(|given| given.schedule = whole.schedule.clone());
                let (mut done, mut ran, mut joined, mut last) = (0, [0; 2], Vec::new(), 0);
                while done < n {
                    given.with_refused_calls();
                    given.n = slice.min(n - done);
                    given.runner = done % 2;
                    given.log = vec![0; 16 * given.n as usize];
                    last = given.call();
                    let counts = given.counts();
                    ran = [ran[0] + counts[0], ran[1] + counts[1]];
                    joined.extend_from_slice(&given.log[..counts[2] as usize]);
                    done += given.n;
                }
                assert_eq!((last, ran), (number, [cycles, begun]));
                assert_eq!(joined, whole.log[..written as usize]);
                assert_eq!(given.image, whole.image);
            }
        }
    }

    impl Given {
        fn with_refused_calls(&self) {
            let short_rom = self.clone().with(|given| given.rom.truncate(1_999));
            short_rom.is_refused(ROM_LENGTH);
            let other_image = self.clone().with(|given| given.image = vec![0; 82]);
            other_image.is_refused(IMAGE_MARK);
        }
    }

    #[test]
    fn a_fresh_image_begins_a_panel() {
        for length in 0..82 {
            let mut image = vec![5; length];
            assert_eq!(fresh(&mut image), SHORT_BUFFER);
            assert_eq!(image, vec![5; length]);
        }
        for length in [82, 83, 100] {
            let mut image = vec![5; length];
            assert_eq!(fresh(&mut image), FINISHED);
            let mut due = [0; 82];
            due[..3].copy_from_slice(b"U43");
            due[4] = 2;
            due[15] = 32;
            assert_eq!(image[..82], due);
            assert_eq!(image[82..], vec![5; length - 82]);
            let restored = restore(&image[..82], Sheet::UPD546);
            assert_eq!(restored, (FINISHED, State::fresh()));
        }
    }

    /// A convert that writes so many bytes of a buffer of this length, and keeps the rest.
    fn converted(from: &[u8], length: usize, version: u64) -> Vec<u8> {
        let mut to = vec![9; length];
        assert_eq!(convert(from, &mut to, version, Sheet::UPD546), FINISHED);
        let written = 80 + version as usize;
        assert_eq!(to[written..], vec![9; length - written]);
        to.truncate(written);
        to
    }

    fn refuses_to_convert(from: &[u8], length: usize, version: u64, number: u8) {
        let mut to = vec![9; length];
        assert_eq!(convert(from, &mut to, version, Sheet::UPD546), number);
        assert_eq!(to, vec![9; length]);
    }

    #[test]
    fn an_image_goes_forward_and_back() {
        let mut draw = Draw::new(8);
        for _ in 0..500 {
            let state = draw.state();
            let [one, two] = Version::BOTH.map(|version| image_in(version, &state));
            assert_eq!(one[5..], two[5..81]);
            assert_eq!((one[4], two[4], two[81]), (1, 2, 0));
            for from in [&one, &two] {
                assert_eq!(converted(from, 81, 1), one);
                assert_eq!(converted(from, 82, 2), two);
                assert_eq!(converted(from, 100, 1), one);
                assert_eq!(converted(from, 100, 2), two);
            }
        }
    }

    /// The image that the samples have of a board from before R-8.
    #[test]
    fn the_sample_of_version_1_is_a_panel_of_450_cycles() {
        let mut lent = Lent::of_panel(&sample("lobby.panel")).expect("the sample is a panel");
        lent.n = 450;
        let (answer, _) = lent.run();
        assert_eq!(answer.number, FINISHED);
        let old = sample("lobby.image");
        assert_eq!(old, image_in(Version::One, &answer.state));
        assert_eq!(converted(&old, 82, 2), image_of(&answer.state));
    }

    #[test]
    fn a_count_is_kept_in_version_2_alone() {
        for count in 1..=4 {
            let two = image_of(&State {
                count,
                ..State::fresh()
            });
            assert_eq!(two[81], count);
            assert_eq!(converted(&two, 82, 2), two);
            // 54 before 1, and not for another version.
            for length in [0, 80, 81, 82] {
                refuses_to_convert(&two, length, 1, COUNT_LOST);
            }
            refuses_to_convert(&two, 82, 3, IMAGE_VERSION);
        }
    }

    #[test]
    fn convert_refuses_in_its_order() {
        let one = image_in(Version::One, &State::fresh());
        let two = image_of(&State::fresh());
        for version in [0, 3, 256, 257, 258, 1 << 32 | 1, u64::MAX] {
            for length in [0, 81, 82] {
                refuses_to_convert(&one, length, version, IMAGE_VERSION);
                refuses_to_convert(&two, length, version, IMAGE_VERSION);
            }
        }
        for from in [&one, &two] {
            refuses_to_convert(from, 80, 1, SHORT_BUFFER);
            refuses_to_convert(from, 81, 2, SHORT_BUFFER);
            refuses_to_convert(from, 0, 2, SHORT_BUFFER);
            // What is wrong with the image comes before the version wanted.
            let damaged = |place: usize, value: u8| {
                let mut image = from.clone();
                image[place] = value;
                image
            };
            for version in [0, 1, 2, 3] {
                refuses_to_convert(&from[..80], 80, version, IMAGE_LENGTH);
                refuses_to_convert(&[&from[..], &[0, 0]].concat(), 80, version, IMAGE_LENGTH);
                refuses_to_convert(&damaged(0, 0), 80, version, IMAGE_MARK);
                refuses_to_convert(&damaged(4, 3), 80, version, IMAGE_VERSION);
                refuses_to_convert(&damaged(4, 3 - from[4]), 80, version, IMAGE_VERSION);
                refuses_to_convert(&damaged(17, 4), 80, version, FIELD);
            }
        }
        let mut above = two.clone();
        above[81] = 5;
        refuses_to_convert(&above, 82, 2, FIELD);
    }
}

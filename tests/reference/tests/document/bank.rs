//! Request R-9, "A bank of panels", sentence by sentence.

use reference::bank::{grants, round, round_bytes, Counts, Panel, ENTRY, MOST};
use reference::sheets::{legal, wrong, HALF};
use reference::{restore, run, save, Runner, Sheet, State, Version};

use crate::common::{any_panel, any_state, rom, schedule, Draw, LAST_CYCLE};

const UPD546: Sheet = Sheet::UPD546;
const IMAGE: usize = 82;

/// A bank with its three buffers.
#[derive(Clone, PartialEq, Eq, Debug)]
struct Bank {
    panels: Vec<Panel>,
    roms: Vec<u8>,
    schedules: Vec<u8>,
    logs: Vec<u8>,
}

impl Bank {
    fn new() -> Bank {
        Bank {
            panels: Vec::new(),
            roms: Vec::new(),
            schedules: Vec::new(),
            logs: Vec::new(),
        }
    }

    /// One panel more at the end of the row. What its last round left is any.
    fn add(&mut self, state: &State, wish: u64, rom: &[u8], schedule: &[u8], log: usize) {
        self.panels.push(Panel {
            state: state.clone(),
            wish,
            lengths: [rom.len(), schedule.len(), log].map(|length| length as u64),
            counts: Counts {
                cycles: 91,
                begun: 92,
                written: 93,
                steps: 94,
            },
            number: 95,
        });
        self.roms.extend(rom);
        self.schedules.extend(schedule);
        let from = self.logs.len();
        self.logs
            .extend((from..from + log).map(|place| (7 * place + 13) as u8));
    }

    fn round(&mut self, t: u64, sheet: Sheet) -> u8 {
        let Bank {
            panels,
            roms,
            schedules,
            logs,
        } = self;
        round(panels, roms, schedules, logs, t, sheet)
    }

    /// The panels as C has them; a state that is no image's has none.
    fn bytes(&self) -> Vec<u8> {
        self.panels.iter().flat_map(entry).collect()
    }

    /// The round is refused with this number, and nothing changes.
    fn is_refused(&self, t: u64, sheet: Sheet, number: u8) {
        let mut after = self.clone();
        assert_eq!(after.round(t, sheet), number);
        assert_eq!(after, *self);
        let (bytes, mut logs) = (self.bytes(), self.logs.clone());
        let mut left = bytes.clone();
        let answer = round_bytes(&mut left, &self.roms, &self.schedules, &mut logs, t, sheet);
        assert_eq!((answer, left, logs), (number, bytes, self.logs.clone()));
    }

    fn cycles(&self) -> Vec<u64> {
        let cycles = |panel: &Panel| panel.counts.cycles;
        self.panels.iter().map(cycles).collect()
    }
}

fn entry(panel: &Panel) -> Vec<u8> {
    let mut bytes = vec![0; IMAGE];
    assert_eq!(save(Version::Two, &panel.state, &mut bytes, UPD546), 0);
    let Counts {
        cycles,
        begun,
        written,
        steps,
    } = panel.counts;
    let [rom, schedule, log] = panel.lengths;
    for number in [
        panel.wish, rom, schedule, log, cycles, begun, written, steps,
    ] {
        bytes.extend(number.to_be_bytes());
    }
    bytes.push(panel.number);
    bytes
}

/// Panels of NOPs with these wishes: the cycles of each are its grant.
fn idle(wishes: &[u64]) -> Bank {
    let mut bank = Bank::new();
    for &wish in wishes {
        bank.add(&State::fresh(), wish, &rom(&[]), &[], 0);
    }
    bank
}

/// A panel that writes port E in each second cycle: LI, OE, JCP 001.
fn writer(value: u8) -> Vec<u8> {
    rom(&[(0, &[0x90 | value, 0x44, 0xC1])])
}

/// Each panel's own run of its grant on its own part of the buffers as they were lent.
fn alone(before: &Bank, t: u64, sheet: Sheet) -> Bank {
    let wishes: Vec<u64> = before.panels.iter().map(|panel| panel.wish).collect();
    let mut due = before.clone();
    let mut at = [0; 3];
    for (panel, n) in due.panels.iter_mut().zip(grants(t, &wishes)) {
        let [rom, schedule, log] =
            [0, 1, 2].map(|kind| at[kind]..at[kind] + panel.lengths[kind] as usize);
        at = [rom.end, schedule.end, log.end];
        let mut part = before.logs[log.clone()].to_vec();
        let (rom, schedule) = (&before.roms[rom], &before.schedules[schedule]);
        let runner = Runner::Skipping;
        let answer = run(runner, rom, schedule, &panel.state, &mut part, n, sheet);
        due.logs[log].copy_from_slice(&part);
        panel.state = answer.state;
        panel.number = answer.number;
        panel.counts = Counts {
            cycles: answer.cycles,
            begun: answer.begun,
            written: answer.written as u64,
            steps: answer.steps,
        };
    }
    due
}

/// "each is first granted the smaller of its wish and T divided by m, rounded down. What is left goes to unmet wishes in order of the
/// row.", reckoned by hand.
#[test]
fn grants_by_hand() {
    for (t, wishes, due) in [
        // The remainder goes to the first of the row, and to nobody else.
        (17, &[100, 100, 100][..], &[7, 5, 5][..]),
        (2, &[100, 100, 100], &[2, 0, 0]),
        // What small wishes leave goes to the first unmet one, as much as it lacks.
        (30, &[10, 3, 50], &[10, 3, 17]),
        (30, &[3, 50, 50], &[3, 17, 10]),
        (30, &[12, 3, 50], &[12, 3, 15]),
        (30, &[50, 3, 12], &[17, 3, 10]),
        (30, &[11, 11, 2, 50], &[11, 10, 2, 7]),
        // All wishes are met, and the rest of T is nobody's.
        (100, &[10, 0, 20], &[10, 0, 20]),
        (0, &[10, 3], &[0, 0]),
        (10, &[u64::MAX], &[10]),
        (u64::MAX, &[u64::MAX], &[u64::MAX]),
        (u64::MAX, &[0, u64::MAX], &[0, u64::MAX]),
        (u64::MAX, &[u64::MAX, u64::MAX], &[1 << 63, (1 << 63) - 1]),
        (5, &[], &[]),
    ] {
        assert_eq!(grants(t, wishes), due, "{t} {wishes:?}");
    }
}

/// "Grants never exceed T together or any wish, none is below that first share, and together they reach T or every wish is met."
#[test]
fn grants_are_fair() {
    let mut draw = Draw::new(9);
    let (mut reached, mut met) = (0, 0);
    for _ in 0..20_000 {
        let m = 1 + draw.below(16);
        let wide = draw.of(&[3, 40, 1 << 32]);
        let wishes: Vec<u64> = (0..m)
            .map(|_| match draw.below(8) {
                0 => 0,
                1 => u64::MAX,
                2 => u64::MAX / m,
                _ => draw.below(wide),
            })
            .collect();
        let t = match draw.below(6) {
            0 => 0,
            1 => 1,
            2 => m - 1,
            3 => u64::MAX,
            _ => draw.below(wide) * draw.below(20),
        };
        let grants = grants(t, &wishes);
        let sum: u128 = grants.iter().map(|&grant| u128::from(grant)).sum();
        assert_eq!(grants.len(), wishes.len());
        assert!(sum <= u128::from(t));
        for (&grant, &wish) in grants.iter().zip(&wishes) {
            assert!(grant <= wish && grant >= wish.min(t / m));
        }
        assert!(sum == u128::from(t) || grants == wishes);
        reached += usize::from(sum == u128::from(t));
        met += usize::from(grants == wishes);
        // "in order of the row": behind a wish that isn't met nobody has more than the first share.
        let unmet = grants.iter().zip(&wishes).position(|(a, b)| a < b);
        for place in unmet.map_or(0..0, |unmet| unmet + 1..wishes.len()) {
            assert_eq!(grants[place], wishes[place].min(t / m));
        }
    }
    assert!(reached > 3_000 && met > 2_000, "{reached} {met}");
}

/// Grants are what the panels run, for 1 to 16 panels; m is their number and not 16.
#[test]
fn panels_run_their_grants() {
    for m in 1..=MOST as u64 {
        for t in [0, 1, m - 1, m, m + 1, 5 * m - 1, 5 * m, 160] {
            for pattern in [[9, 9, 9, 9], [0, 9, 3, 50], [50, 1, 0, 2], [1, 1, 1, 200]] {
                let wishes: Vec<u64> = pattern.into_iter().cycle().take(m as usize).collect();
                let mut bank = idle(&wishes);
                assert_eq!(bank.round(t, UPD546), 0);
                assert_eq!(bank.cycles(), grants(t, &wishes));
            }
        }
    }
}

/// "A panel's state, log, counts and number after a round are those of its own timer-skipping run for its grant": steps tell the runner.
#[test]
fn a_panel_is_run_by_the_timer_skipping_runner() {
    // STM 63, TTM, JCP 002.
    let waiting = rom(&[(0, &[0x14, 0xBF, 0x05, 0xC2])]);
    let mut bank = Bank::new();
    for _ in 0..3 {
        bank.add(&State::fresh(), 4_000, &waiting, &[], 0);
    }
    assert_eq!(bank.round(12_000, UPD546), 0);
    for panel in &bank.panels {
        assert_eq!((panel.counts.cycles, panel.number), (4_000, 0));
        assert!(panel.counts.steps < 10, "{}", panel.counts.steps);
    }
}

/// "three lent buffers hold the ROMs, schedules and logs, end to end in row order, by lengths kept with each panel"; records start at the
/// first byte of a panel's part in each round, and all other bytes stay.
#[test]
fn parts_stand_end_to_end() {
    let mut bank = Bank::new();
    for (value, log) in [(1, 32), (2, 0), (3, 50), (4, 7), (5, 64)] {
        // Records of other lines, more for each panel.
        let lines: Vec<_> = (0..u64::from(value)).map(|k| (k, value, 0, 1)).collect();
        bank.add(&State::fresh(), 6, &writer(value), &schedule(&lines), log);
    }
    // Longer buffers are fine.
    bank.roms.extend([0x1C; 9]);
    bank.schedules.extend([9; 3]);
    bank.logs.extend([200; 20]);
    for _ in 0..3 {
        let before = bank.clone();
        assert_eq!(bank.round(30, UPD546), 0);
        assert_eq!(bank, alone(&before, 30, UPD546));
        let values: Vec<u8> = [7, 39, 96].map(|at| bank.logs[at]).to_vec();
        assert_eq!(values, [1, 3, 5]);
        assert_eq!(bank.logs[153..], [200; 20]);
    }
    let numbers: Vec<u8> = bank.panels.iter().map(|panel| panel.number).collect();
    assert_eq!(numbers, [0, 3, 0, 3, 0]);
}

/// "its wish and lengths stay": a wish isn't lowered by what was run, and counts don't add up over rounds.
#[test]
fn wish_and_lengths_stay() {
    let mut bank = idle(&[10, 0, 25]);
    for round in 1..=4 {
        assert_eq!(bank.round(30, UPD546), 0);
        assert_eq!(bank.cycles(), [10, 0, 20]);
        let wishes: Vec<u64> = bank.panels.iter().map(|panel| panel.wish).collect();
        assert_eq!(wishes, [10, 0, 25]);
        for panel in &bank.panels {
            assert_eq!(panel.lengths, [2_000, 0, 0]);
        }
        let cycles: Vec<u64> = bank.panels.iter().map(|panel| panel.state.cycle).collect();
        assert_eq!(cycles, [10 * round, 0, 20 * round]);
    }
}

/// "An empty bank does nothing": whatever T and the buffers; 71 is still given.
#[test]
fn an_empty_bank_does_nothing() {
    for t in [0, 1, 100, u64::MAX] {
        let mut bank = Bank::new();
        bank.logs = vec![5; 40];
        bank.roms = vec![0x1C; 3];
        let before = bank.clone();
        assert_eq!(bank.round(t, UPD546), 0);
        assert_eq!(bank, before);
        let mut none = [];
        assert_eq!(round_bytes(&mut none, &[], &[], &mut [], t, UPD546), 0);
        for sheet in wrong(HALF) {
            bank.is_refused(t, sheet, 71);
        }
    }
}

/// What can be wrong with a panel, and the number that it then has: a stop or a refusal.
fn odd_panel(number: u8, bank: &mut Bank) {
    let (fresh, sound) = (State::fresh(), writer(6));
    let mut state = fresh.clone();
    let twice = schedule(&[(4, 0, 0, 1), (4, 0, 0, 1)]);
    let mut bad_int = schedule(&[(4, 0, 0, 1)]);
    bad_int[8] = 2;
    match number {
        2 => {
            state.cycle = LAST_CYCLE - 9;
            bank.add(&state, 10, &sound, &[], 80);
        }
        3 => bank.add(&fresh, 10, &sound, &[], 15),
        11 => bank.add(&fresh, 10, &sound, &twice[..9], 80),
        12 => bank.add(&fresh, 10, &sound, &[0; 40_970], 80),
        13 => bank.add(&fresh, 10, &sound, &bad_int, 80),
        14 => bank.add(&fresh, 10, &sound, &twice, 80),
        21 => bank.add(&fresh, 10, &sound[..1_999], &[], 80),
        22 => {
            state.pc = 0x7CF;
            bank.add(&state, 10, &rom(&[(0x7CF, &[0x17])]), &[], 80);
        }
        23 => bank.add(&fresh, 10, &rom(&[(3, &[0x45])]), &[], 80),
        _ => {
            state.owed = 4;
            bank.add(&state, 10, &sound, &[], 80);
        }
    }
}

/// "One panel's stop or refusal doesn't hold up the rest, and its unused grant lapses": at every place of the row, with each number.
/// It takes its place in the buffers.
#[test]
fn no_panel_holds_up_the_rest() {
    let mut tried = 0;
    for number in [2, 3, 11, 12, 13, 14, 21, 22, 23, 34] {
        for odd in 0..MOST {
            let mut bank = Bank::new();
            for place in 0..MOST {
                if place == odd {
                    odd_panel(number, &mut bank);
                } else {
                    let records = schedule(&[(place as u64, 0x10, 0, 1)]);
                    bank.add(&State::fresh(), 12, &writer(place as u8), &records, 100);
                }
            }
            // A share of 10, and 20 more: two cycles each for the first ten wishes of 12.
            let before = bank.clone();
            assert_eq!(bank.round(180, UPD546), 0);
            assert_eq!(bank, alone(&before, 180, UPD546));
            assert_eq!(bank.panels[odd].number, number);
            let others: Vec<u64> = (0..MOST)
                .filter(|&place| place != odd)
                .map(|place| bank.panels[place].counts.cycles)
                .collect();
            // Nobody gets what it doesn't use.
            let share = 180 / 16;
            let sum = 180 - 10;
            assert!(others.iter().all(|&cycles| cycles >= share));
            assert_eq!(others.iter().sum::<u64>(), sum);
            if !matches!(number, 3 | 22 | 23) {
                assert_eq!(bank.panels[odd].state, before.panels[odd].state);
                assert_eq!(bank.panels[odd].counts, Counts::default());
            }
            tried += 1;
        }
    }
    assert_eq!(tried, 160);
}

/// Refusal 2 is judged with the grant, and not with the wish; and a grant of 0 is a run of none, which finishes or is refused.
#[test]
fn a_run_is_judged_with_its_grant() {
    let mut state = State::fresh();
    state.cycle = LAST_CYCLE - 5;
    let mut bank = Bank::new();
    for wish in [u64::MAX, u64::MAX, 0] {
        bank.add(&state, wish, &rom(&[]), &[], 0);
    }
    bank.add(&State::fresh(), 0, &rom(&[])[..5], &[], 0);
    for (t, numbers, cycles) in [
        // A share of 1, and 5 more for the first, which may run 5 in all.
        (7, [2, 0, 0, 21], [0, 1, 0, 0]),
        (6, [0, 0, 0, 21], [5, 1, 0, 0]),
        (0, [0, 0, 0, 21], [0, 0, 0, 0]),
        (u64::MAX, [2, 2, 0, 21], [0, 0, 0, 0]),
    ] {
        let mut bank = bank.clone();
        assert_eq!(bank.round(t, UPD546), 0);
        let found: Vec<u8> = bank.panels.iter().map(|panel| panel.number).collect();
        assert_eq!((found, bank.cycles()), (numbers.to_vec(), cycles.to_vec()));
    }
}

/// "61 more than sixteen panels": sixteen are accepted.
#[test]
fn sixteen_panels_are_accepted() {
    for m in 0..=40 {
        let mut bank = idle(&vec![3; m]);
        if m <= 16 {
            assert_eq!(bank.round(48, UPD546), 0);
            assert_eq!(bank.cycles(), vec![3; m]);
        } else {
            bank.is_refused(48, UPD546, 61);
        }
    }
}

/// "62 the lengths of a kind together exceed their buffer": equal is fine, a byte less is not; each kind by itself, and without
/// wrap-around.
#[test]
fn lengths_of_a_kind_are_held_to_their_buffer() {
    let mut bank = Bank::new();
    for _ in 0..4 {
        bank.add(
            &State::fresh(),
            5,
            &writer(1),
            &schedule(&[(0, 0, 0, 1)]),
            48,
        );
    }
    assert_eq!(bank.clone().round(20, UPD546), 0);
    for kind in 0..3 {
        let mut short = bank.clone();
        match kind {
            0 => drop(short.roms.pop()),
            1 => drop(short.schedules.pop()),
            _ => drop(short.logs.pop()),
        }
        short.is_refused(20, UPD546, 62);
        // Room in the other buffers is no help.
        short.roms.extend(vec![0; if kind == 0 { 0 } else { 9 }]);
        short
            .schedules
            .extend(vec![0; if kind == 1 { 0 } else { 9 }]);
        short.logs.extend(vec![0; if kind == 2 { 0 } else { 9 }]);
        short.is_refused(20, UPD546, 62);
        for place in 0..4 {
            for length in [u64::MAX, u64::MAX - 3 * 2_000 + 1, 1 << 63, 1 << 32] {
                let mut long = bank.clone();
                long.panels[place].lengths[kind] = length;
                long.is_refused(20, UPD546, 62);
            }
        }
        // Together 2^64, which is 0 in 64 bits.
        let mut wrapped = idle(&[5; 16]);
        for panel in &mut wrapped.panels {
            panel.lengths[kind] = 1 << 60;
        }
        wrapped.is_refused(20, UPD546, 62);
    }
}

/// "Errors, which change nothing: 61 ..; then 62"; 71 before them. For C 63 is the last.
#[test]
fn the_order_of_the_numbers() {
    let bad = Sheet {
        levels: 4,
        ..UPD546
    };
    let sound = idle(&[5; 3]);
    let mut many = idle(&[5; 17]);
    sound.is_refused(9, bad, 71);
    many.is_refused(9, UPD546, 61);
    many.roms.clear();
    many.is_refused(9, UPD546, 61);
    many.is_refused(9, bad, 71);
    let mut short = sound.clone();
    short.roms.clear();
    short.is_refused(9, UPD546, 62);
    short.is_refused(9, bad, 71);
    // A byte more, or less.
    let torn = |bank: &Bank, length: usize, sheet: Sheet| {
        let mut bytes = bank.bytes();
        bytes.resize(length, 0);
        let (before, mut logs) = (bytes.clone(), bank.logs.clone());
        let (roms, schedules) = (&bank.roms, &bank.schedules);
        let number = round_bytes(&mut bytes, roms, schedules, &mut logs, 9, sheet);
        assert!(number == 0 || (&bytes, &logs) == (&before, &bank.logs));
        number
    };
    for length in 0..=4 * ENTRY {
        let due = if length % 147 == 0 { 0 } else { 63 };
        assert_eq!(torn(&sound, length, UPD546), due, "{length}");
        assert_eq!(torn(&sound, length, bad), 71);
    }
    // Only whole entries are counted, and only their lengths are looked at.
    assert_eq!(torn(&many, 17 * ENTRY - 1, UPD546), 62);
    assert_eq!(torn(&many, 17 * ENTRY + 1, UPD546), 61);
    let mut long = sound.clone();
    long.panels[2].lengths[2] = u64::MAX;
    assert_eq!(torn(&long, 3 * ENTRY - 1, UPD546), 63);
    assert_eq!(torn(&long, 3 * ENTRY, UPD546), 62);
    assert_eq!(torn(&long, 3 * ENTRY + 1, UPD546), 62);
    assert_eq!(torn(&idle(&[5; 16]), 16 * ENTRY + 146, UPD546), 63);
}

/// A refused round leaves the counts and the numbers of the last one too, which the others write anew.
#[test]
fn a_refused_round_leaves_the_last_ones_counts() {
    let mut bank = idle(&[5, 7]);
    assert_eq!(bank.round(12, UPD546), 0);
    let after = bank.clone();
    bank.logs.clear();
    bank.panels[1].lengths[2] = 1;
    bank.is_refused(12, UPD546, 62);
    bank.panels[1].lengths[2] = 0;
    assert_eq!(bank, after);
}

/// the sheet judges every panel's state, which is that panel's 34, and the length of its ROM, which is that panel's 21.
#[test]
fn the_sheet_judges_each_panel() {
    let mut held = State::fresh();
    held.ram[0x20] = 8;
    for sheet in legal() {
        let length = sheet.rom as usize;
        let mut bank = Bank::new();
        let nops = vec![0; length];
        bank.add(&State::fresh(), 1, &nops, &[], 0);
        bank.add(&held, 1, &nops, &[], 0);
        bank.add(&State::fresh(), 1, &vec![0; length + 1], &[], 0);
        bank.add(&State::fresh(), 1, &nops, &[], 0);
        let row_2 = sheet.rows >> 2 & 1 == 1;
        assert_eq!(bank.round(4, sheet), 0);
        let numbers: Vec<u8> = bank.panels.iter().map(|panel| panel.number).collect();
        assert_eq!(numbers, [0, if row_2 { 0 } else { 34 }, 21, 0]);
    }
}

/// A drawn bank of so many panels: of every kind, and with every T. No grant is so large that its run would take long.
fn drawn(draw: &mut Draw, m: u64, sheet: Sheet) -> (Bank, u64) {
    let mut bank = Bank::new();
    let huge = draw.one_in(4);
    for _ in 0..m {
        let (mut rom, schedule, mut state) = any_panel(draw);
        rom.truncate(sheet.rom as usize);
        if !draw.one_in(12) {
            state = sheet.fitted(&state);
        }
        match draw.below(12) {
            0 => rom.truncate(draw.below(rom.len() as u64 + 1) as usize),
            1 => state = any_state(draw),
            _ => {}
        }
        let wish = match draw.below(6) {
            0 => 0,
            1 => u64::MAX,
            2 => draw.below(600),
            _ => draw.below(60),
        };
        let log = draw.of(&[0, 8, 100, 1_000]);
        let cut = if draw.one_in(8) { draw.below(30) } else { 0 } as usize;
        let schedule = &schedule[..schedule.len().saturating_sub(cut)];
        bank.add(&state, wish, &rom, schedule, log);
    }
    let t = match draw.below(6) {
        _ if huge => u64::MAX - draw.below(3),
        0 => 0,
        1 => 1,
        2 => m.saturating_sub(1),
        _ => draw.below(1_000),
    };
    (bank, t)
}

/// "the others may affect the grant, where its parts of the buffers lie and whether 61 or 62 is given, and nothing else": drawn banks,
/// each panel against its own run.
#[test]
fn each_panel_is_as_if_it_were_alone() {
    let mut draw = Draw::new(99);
    let mut numbers = [0; 256];
    for k in 0..1_500 {
        let sheet = if draw.one_in(2) { UPD546 } else { draw.sheet() };
        let (mut bank, t) = drawn(&mut draw, k % 18, sheet);
        if k % 18 == 17 {
            bank.is_refused(t, sheet, 61);
            continue;
        }
        for _ in 0..3 {
            let before = bank.clone();
            assert_eq!(bank.round(t, sheet), 0);
            assert_eq!(bank, alone(&before, t, sheet));
            for panel in &bank.panels {
                numbers[usize::from(panel.number)] += 1;
            }
        }
    }
    for number in [0, 2, 3, 11, 21, 22, 23, 34] {
        assert!(numbers[number] > 100, "{number}: {}", numbers[number]);
    }
}

/// The bytes of C are the same round: "image refusals come first", and what isn't a panel's image keeps its bytes and holds nobody up.
#[test]
fn the_bytes_of_c_are_the_same_round() {
    let mut draw = Draw::new(147);
    let mut numbers = [0; 256];
    assert_eq!(ENTRY, 147);
    for k in 0..1_500 {
        let sheet = if draw.one_in(2) { UPD546 } else { draw.sheet() };
        let (bank, t) = drawn(&mut draw, k % 17, sheet);
        let mut bytes = bank.bytes();
        // Some images are damaged.
        for entry in bytes.chunks_exact_mut(ENTRY) {
            if draw.one_in(4) {
                let place = draw.below(IMAGE as u64) as usize;
                entry[draw.of(&[place, 0, 4])] = draw.byte();
            }
        }
        let given = bytes.clone();
        let mut logs = bank.logs.clone();
        let (roms, schedules) = (&bank.roms, &bank.schedules);
        let number = round_bytes(&mut bytes, roms, schedules, &mut logs, t, sheet);
        assert_eq!(number, 0);
        // As values: a damaged image's panel has its place alone.
        let mut values = bank.clone();
        let mut refused = Vec::new();
        for (panel, entry) in values.panels.iter_mut().zip(given.chunks(ENTRY)) {
            let (number, state) = restore(&entry[..IMAGE], sheet);
            panel.state = state;
            refused.push(number);
        }
        let mut due = alone(&values, t, sheet);
        let mut at = 0;
        for (place, entry) in bytes.chunks(ENTRY).enumerate() {
            let log = at..at + bank.panels[place].lengths[2] as usize;
            at = log.end;
            numbers[usize::from(entry[146])] += 1;
            if refused[place] != 0 {
                assert_eq!(entry[..114], given[place * ENTRY..][..114]);
                assert_eq!(entry[114..146], [0; 32]);
                assert_eq!(entry[146], refused[place]);
                due.logs[log.clone()].copy_from_slice(&bank.logs[log]);
            } else {
                assert_eq!(entry, self::entry(&due.panels[place]));
            }
        }
        assert_eq!(logs, due.logs);
    }
    for number in [0, 2, 3, 11, 21, 22, 23, 32, 33, 34] {
        assert!(numbers[number] > 40, "{number}: {}", numbers[number]);
    }
}

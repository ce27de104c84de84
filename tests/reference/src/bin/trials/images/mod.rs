//! Saves and restores: groups of tries on sound and damaged bytes, on states as values, and on buffers of
//! every length.

mod bases;
pub mod group;
mod sheets;
#[cfg(test)]
mod tests;

use std::collections::BTreeMap;

use reference::call::{call, convert, fresh, REPORT};
use reference::case::{state_bytes, Case, FEW_JCP, FEW_JUMPS, INSIDE, NO_STOPS};
use reference::kinds::Count;
use reference::{restore, save, Sheet, State, Version};

use crate::stream::{pattern, Chain, Of, Stream};
use crate::Item;
pub use bases::state_of;
use bases::{Shape, CYCLE, IMAGE, RAM, UNCOUNTED, VALUE};
pub use group::Group;
use group::{Tally, Trial, Variant};

/// A row of the RAM.
const ROW: usize = 16;

/// A state with its name.
type Named = (&'static str, State);

pub fn all() -> Vec<Group> {
    let states = bases::states();
    let mut groups = bytes(&states);
    groups.extend(pairs(&states));
    for version in [Version::Two, Version::One] {
        let states = states_in(version, &states);
        groups.extend(lengths(version, &states));
        groups.extend(torn(version, &states));
        groups.extend(torn_with_others(version, &states));
        groups.extend(drawn(version));
    }
    groups.extend(torn_between_versions(&states));
    groups.extend(values(&value_states(&states)));
    groups.extend(buffers(&states));
    groups.extend(sheets::groups(&states));
    groups
}

/// The states that have an image of this version: all; of version 1 the first three and that of mark LI, with a
/// count of 0.
fn states_in(version: Version, states: &[Named]) -> Vec<Named> {
    match version {
        Version::Two => states.to_vec(),
        Version::One => [0, 1, 2, 6]
            .map(|base| (states[base].0, bases::uncounted(&states[base].1)))
            .to_vec(),
    }
}

/// The states whose bytes are tried as values: the first three with a count of 0, and one with a count of 3.
fn value_states(states: &[Named]) -> Vec<Named> {
    let mut bases = states_in(Version::One, states);
    bases[3] = states[UNCOUNTED + 2].clone();
    bases
}

/// What is put before the names of version 1's groups.
fn prefix(version: Version) -> &'static str {
    match version {
        Version::One => "version 1, ",
        Version::Two => "",
    }
}

/// How many values a byte of an image can take in the fresh image, 256 where every one is taken.
fn width(place: usize) -> usize {
    match place {
        0..=4 | 19 => 1,
        5 | 7 | 9 | 11 | 26 => 8,
        14 | 20..=25 => 16,
        16 | 81 => 5,
        17 => 4,
        15 | 18 => 64,
        13 => 128,
        _ => 256,
    }
}

/// By what a byte is refused.
fn refusal(place: usize) -> u8 {
    match place {
        0..=2 => 32,
        3 | 4 => 33,
        _ => 34,
    }
}

fn byte_numbers(place: usize) -> Vec<u8> {
    if width(place) == 256 {
        vec![0]
    } else {
        vec![0, refusal(place)]
    }
}

/// Every byte at every value: of version 2 in the states without a count, the highest and one with a count of
/// 3; of version 1 in its own.
fn bytes(states: &[Named]) -> Vec<Group> {
    let mut groups = Vec::new();
    for version in [Version::Two, Version::One] {
        let mut states = states_in(version, states);
        if version == Version::Two {
            states.swap(UNCOUNTED, UNCOUNTED + 2);
            states.truncate(UNCOUNTED + 1);
        }
        for (base, (name, state)) in states.iter().enumerate() {
            for place in 0..version.length() {
                groups.push(Group {
                    name: format!("{}{name}: byte {place}", prefix(version)),
                    trial: Trial::Byte {
                        image: bases::image_in(version, state),
                        place,
                    },
                    base: base as u8,
                    at: place as u8,
                    numbers: byte_numbers(place),
                    sheet: Sheet::UPD546,
                });
            }
        }
    }
    groups
}

/// Mark, version, PC and stack, flags with mark, register with counter, ports H and I, the cycle number's last
/// byte with the count. Of version 1 the version.
fn pairs(states: &[Named]) -> Vec<Group> {
    let mut groups = Vec::new();
    for (version, place, base) in [
        (Version::Two, 0, 1),
        (Version::Two, 3, 1),
        (Version::Two, 5, 1),
        (Version::Two, 11, 1),
        (Version::Two, 15, 1),
        (Version::Two, 18, 1),
        (Version::Two, 18, 0),
        (Version::Two, 25, 2),
        (Version::Two, 80, 2),
        (Version::One, 3, 1),
    ] {
        let (name, state) = &states[base];
        groups.push(Group {
            name: format!("{}{name}: bytes {place} and {}", prefix(version), place + 1),
            trial: Trial::Pair {
                image: bases::image_in(version, state),
                place,
            },
            base: base as u8,
            at: place as u8,
            numbers: vec![0, refusal(place)],
            sheet: Sheet::UPD546,
        });
    }
    groups
}

/// 31 comes before all others. An image of one version that gets the length of the other is 33; with the
/// other's number it is that, whose count is 0 or what the generator draws.
fn lengths(version: Version, states: &[Named]) -> Vec<Group> {
    let images = states.iter().map(|(name, state)| {
        (
            *name,
            bases::image_in(version, state),
            [vec![0, 33], vec![0, 33]],
        )
    });
    let numbers: [[&[u8]; 2]; 5] = match version {
        Version::Two => [
            [&[32]; 2],
            [&[32]; 2],
            [&[32]; 2],
            [&[0, 33]; 2],
            [&[33, 34]; 2],
        ],
        Version::One => [
            [&[32]; 2],
            [&[32]; 2],
            [&[32]; 2],
            [&[0, 33], &[33, 34]],
            [&[33, 34]; 2],
        ],
    };
    let others = bases::others(version, &states[1].1)
        .into_iter()
        .zip(numbers)
        .map(|((name, bytes), numbers)| (name, bytes, numbers.map(<[u8]>::to_vec)));
    let mut groups = Vec::new();
    for (base, (name, image, numbers)) in images.chain(others).enumerate() {
        for (seed, numbers) in [0, 1_000 + base as u32].into_iter().zip(numbers) {
            groups.push(Group {
                name: format!("{}{name}: every length, seed {seed}", prefix(version)),
                trial: Trial::Length {
                    image: image.clone(),
                    seed,
                },
                base: base as u8,
                at: 0,
                numbers: [numbers, vec![31]].concat(),
                sheet: Sheet::UPD546,
            });
        }
    }
    groups
}

/// Between register and counter a stopped timer can get a counter.
fn torn(version: Version, states: &[Named]) -> Vec<Group> {
    let mut groups = Vec::new();
    for (base, (name, state)) in states.iter().enumerate() {
        for (other, (rest_name, rest)) in states.iter().enumerate() {
            if base == other {
                continue;
            }
            let mut numbers = vec![0];
            if state.register == 0 && rest.counter > 0 {
                numbers.push(34);
            }
            groups.push(Group {
                name: format!("{}{name}, then {rest_name}", prefix(version)),
                trial: Trial::Torn {
                    first: bases::image_in(version, state),
                    rest: bases::image_in(version, rest),
                },
                base: base as u8,
                at: other as u8,
                numbers,
                sheet: Sheet::UPD546,
            });
        }
    }
    groups
}

/// An image over bytes that are none, and the other way round: the numbers of both.
fn torn_with_others(version: Version, states: &[Named]) -> Vec<Group> {
    let expected: [[&[u8]; 2]; 5] = [
        [&[0, 32, 33], &[0, 32]],
        [&[0, 32, 33, 34], &[0, 32]],
        [&[0, 32], &[0, 32]],
        [&[0, 33], &[0, 33]],
        [&[0, 34], &[0, 34]],
    ];
    let (_, state) = &states[1];
    let image = bases::image_in(version, state);
    let mut groups = Vec::new();
    for (place, ((name, bytes), numbers)) in bases::others(version, state)
        .into_iter()
        .zip(expected)
        .enumerate()
    {
        let other = (states.len() + place) as u8;
        groups.push(Group {
            name: format!("{}an image, then {name}", prefix(version)),
            trial: Trial::Torn {
                first: image.clone(),
                rest: bytes.clone(),
            },
            base: 1,
            at: other,
            numbers: numbers[0].to_vec(),
            sheet: Sheet::UPD546,
        });
        groups.push(Group {
            name: format!("{}{name}, then an image", prefix(version)),
            trial: Trial::Torn {
                first: bytes,
                rest: image.clone(),
            },
            base: other,
            at: 1,
            numbers: numbers[1].to_vec(),
            sheet: Sheet::UPD546,
        });
    }
    groups
}

/// An image of version 2 over one of version 1 with a byte behind it, and the other way round: the version goes
/// with the length or not. The other way round at 81 bytes, where version 2 lacks its last.
fn torn_between_versions(states: &[Named]) -> Vec<Group> {
    let mut groups = Vec::new();
    for (base, (name, state)) in states[..UNCOUNTED].iter().enumerate() {
        let two = bases::image(state);
        let one = bases::image_in(Version::One, &bases::uncounted(state));
        let longer = [&one[..], &[0]].concat();
        let shorter = two[..one.len()].to_vec();
        for (name, first, rest) in [
            (
                format!("{name}: version 2, then 1"),
                two.clone(),
                longer.clone(),
            ),
            (format!("{name}: version 1, then 2"), longer, two),
            (
                format!("{name}: version 2 of 81 bytes, then 1"),
                shorter.clone(),
                one.clone(),
            ),
            (
                format!("{name}: version 1, then 2 of 81 bytes"),
                one,
                shorter,
            ),
        ] {
            groups.push(Group {
                name,
                trial: Trial::Torn { first, rest },
                base: base as u8,
                at: 0,
                numbers: vec![0, 33],
                sheet: Sheet::UPD546,
            });
        }
    }
    groups
}

fn drawn(version: Version) -> Vec<Group> {
    let image = version.length() as u8;
    // Some 40 of any length have an image's; of version 2 one of these has a stopped timer with a counter.
    let of_widths: &[u8] = match version {
        Version::One => &[0, 31, 33],
        Version::Two => &[0, 31, 33, 34],
    };
    let parts: [(&str, Shape, u32, u8, u8, &[u8]); 12] = [
        ("any bytes", bases::any(), 2_000, image, 1, &[32]),
        (
            "any bytes, any length",
            bases::any(),
            8_000,
            0,
            201,
            &[31, 32],
        ),
        ("sound mark", bases::marked(), 2_000, image, 1, &[33]),
        (
            "sound mark, 79 to 84",
            bases::marked(),
            2_000,
            79,
            6,
            &[31, 33],
        ),
        (
            "sound version",
            bases::versioned(version),
            4_000,
            image,
            1,
            &[34],
        ),
        (
            "sound version, 79 to 84",
            bases::versioned(version),
            2_000,
            79,
            6,
            &[31, 33, 34],
        ),
        (
            "within widths",
            bases::narrow(version, 0),
            4_000,
            image,
            1,
            &[0, 34],
        ),
        (
            "within widths, any length",
            bases::narrow(version, 0),
            8_000,
            0,
            201,
            of_widths,
        ),
        (
            "one above",
            bases::narrow(version, 1),
            8_000,
            image,
            1,
            &[0, 34],
        ),
        (
            "one above, 79 to 84",
            bases::narrow(version, 1),
            4_000,
            79,
            6,
            &[0, 31, 33, 34],
        ),
        (
            "close",
            bases::near(version),
            8_000,
            image,
            1,
            &[0, 32, 33, 34],
        ),
        (
            "close, 79 to 84",
            bases::near(version),
            16_000,
            79,
            6,
            &[0, 31, 32, 33, 34],
        ),
    ];
    let mut groups = Vec::new();
    for (base, (name, shape, tries, shortest, lengths, numbers)) in parts.into_iter().enumerate() {
        groups.push(Group {
            name: format!("{}drawn: {name}", prefix(version)),
            trial: Trial::Drawn {
                shape,
                tries,
                shortest,
                lengths,
                seed: 546 + 7_919 * base as u32,
            },
            base: base as u8,
            at: shortest,
            numbers: numbers.to_vec(),
            sheet: Sheet::UPD546,
        });
    }
    groups
}

/// Whether some value of a byte of a state is refused by 34: all but the lower bytes of the cycle number,
/// of PC and of the stack words.
fn has_width(place: usize) -> bool {
    !matches!(place, 126..=131 | 1 | 3 | 5 | 7)
}

/// Each byte of a state as a value; the RAM by rows.
fn values(states: &[Named]) -> Vec<Group> {
    let mut groups = Vec::new();
    for (base, (name, state)) in states.iter().enumerate() {
        let singles = (0..RAM.start).chain(RAM.end..VALUE).map(|place| (place, 1));
        let rows = RAM.step_by(ROW).map(|place| (place, ROW));
        for (place, count) in singles.chain(rows) {
            let mut numbers = vec![0, 1];
            if has_width(place) {
                numbers.push(34);
            }
            // "a version 1 image wanted while the count isn't 0"
            if state.count > 0 || place == CYCLE.end {
                numbers.push(54);
            }
            groups.push(Group {
                name: format!("{name} as a value: {count} from {place} on"),
                trial: Trial::Value {
                    state: state_bytes(state),
                    place,
                    count,
                },
                base: base as u8,
                at: place as u8,
                numbers,
                sheet: Sheet::UPD546,
            });
        }
    }
    groups
}

/// 34 comes before 54, and 54 before 1.
fn buffers(states: &[Named]) -> Vec<Group> {
    let mut groups = Vec::new();
    for version in [Version::Two, Version::One] {
        let sound = states.iter().cloned().map(|(name, state)| {
            let lost = version == Version::One && state.count > 0;
            let numbers = if lost { vec![54] } else { vec![0, 1] };
            ((name, state), numbers)
        });
        let faulty = [1, UNCOUNTED + 2]
            .into_iter()
            .flat_map(|base| bases::faulty_states(&states[base].1))
            .map(|base| (base, vec![34]));
        for (base, ((name, state), numbers)) in sound.chain(faulty).enumerate() {
            groups.push(Group {
                name: format!("{}{name}: every buffer", prefix(version)),
                trial: Trial::Buffer {
                    state: state_bytes(&state),
                    version,
                },
                base: base as u8,
                at: 0,
                numbers,
                sheet: Sheet::UPD546,
            });
        }
    }
    groups
}

/// A group reaches the numbers that it has to and no others, and all that was done comes back.
fn faults(group: &Group, tally: &Tally) -> Vec<String> {
    let mut faults = Vec::new();
    let mut numbers = group.numbers.clone();
    numbers.sort();
    let reached: Vec<u8> = tally.counts.keys().copied().collect();
    if reached != numbers {
        faults.push(format!("{}: answered by {reached:?}", group.name));
    }
    if tally.same != tally.count(0) {
        faults.push(format!("{}: {} came back", group.name, tally.same));
    }
    faults
}

/// What is wrong with the groups.
pub fn all_faults(groups: &[Group]) -> Vec<String> {
    let wrong = groups.iter().map(|group| faults(group, &group.tally()));
    wrong.collect::<Vec<_>>().concat()
}

/// How many groups there are of each kind of trial, and together; how many are of restores, and how many under other sheets than the
/// uPD546's.
pub fn counts() -> Vec<Count> {
    let groups = all();
    let mut counts = BTreeMap::new();
    for group in &groups {
        *counts.entry(group.trial.word()).or_insert(0) += 1;
    }
    counts.insert("all", groups.len());
    let smaller = groups.iter().filter(|group| group.sheet != Sheet::UPD546);
    counts.insert("sheets", smaller.count());
    let converts = groups.iter().cloned().filter_map(Converts::of);
    counts.insert("converts", converts.count());
    let restores = groups.into_iter().filter_map(Calls::of);
    counts.insert("restores", restores.count());
    let named = counts.into_iter();
    named
        .map(|(word, count)| (format!("groups/{word}"), count))
        .collect()
}

/// A few groups.
pub fn small() -> Vec<Group> {
    let wanted = [
        "fresh: byte 15",
        "fresh as a value: 1 from 20 on",
        "half a chip: byte 11",
        "half a chip as a value: 1 from 7 on",
    ];
    let mut groups = all();
    groups.retain(|group| wanted.contains(&group.name.as_str()));
    groups
}

/// The bytes that a program has, so that of the next ones only those that differ are sent.
struct Sent(Option<Vec<u8>>);

impl Sent {
    /// The places that have to be changed to get these bytes; none where all have to be sent.
    fn changes(&self, bytes: &[u8]) -> Option<Vec<(usize, u8)>> {
        let sent = self.0.as_ref().filter(|sent| sent.len() == bytes.len())?;
        let both = sent.iter().zip(bytes).enumerate();
        let differ: Vec<(usize, u8)> = both
            .filter(|(_, (sent, byte))| sent != byte)
            .map(|(place, (_, &byte))| (place, byte))
            .collect();
        (differ.len() <= 3).then_some(differ)
    }
}

/// A group's restores as calls on the bytes, of no cycle; and of a byte at every fifth of its values as calls
/// of some cycles.
pub struct Calls(pub Group);

/// A ROM on which a run goes on, as long as the sheet says, for calls of some cycles.
fn rom(sheet: Sheet) -> Vec<u8> {
    let filter = NO_STOPS | FEW_JCP | INSIDE | FEW_JUMPS;
    let case = Case::new("").sheet(sheet).made_rom(1_001, filter);
    case.made_rom_bytes()
}

impl Calls {
    /// The group, where it is of restores, but for every value of the bytes of a version 1 image, which a call
    /// refuses by its length.
    pub fn of(group: Group) -> Option<Calls> {
        let wanted = match &group.trial {
            Trial::Value { .. } | Trial::Buffer { .. } => false,
            Trial::Byte { image, .. } | Trial::Pair { image, .. } => image.len() == IMAGE,
            _ => true,
        };
        wanted.then_some(Calls(group))
    }
}

/// One call of a group, on this ROM under the sheet, with a log and a report of so many bytes.
fn chain_call(
    stream: &mut Stream,
    chain: &mut Chain,
    (rom, sheet): (&[u8], Sheet),
    image: &mut [u8],
    n: u64,
    runner: u64,
    (log, report): (usize, usize),
) {
    stream.call(Of::Group, n, runner, log, report);
    let (mut log, mut report) = (pattern(log), pattern(report));
    let number = call(image, rom, &[], &mut log, n, runner, &mut report, sheet);
    chain.called(number);
    chain.bytes(&report);
    chain.bytes(image);
    chain.bytes(&log);
}

impl Item for Calls {
    fn name(&self) -> String {
        self.0.name.clone()
    }

    fn put(&self, stream: &mut Stream) -> String {
        let sheet = self.0.sheet;
        let rom = rom(sheet);
        let lent = (&rom[..], sheet);
        let mut chain = Chain::default();
        stream.sheet(sheet);
        stream.rom(&rom);
        stream.schedule(&[]);
        let mut sent = Sent(None);
        for (place, variant) in self.0.trial.variants().into_iter().enumerate() {
            let Variant::Restore(mut image) = variant else {
                continue;
            };
            match sent.changes(&image) {
                Some(changes) => changes
                    .into_iter()
                    .for_each(|(place, byte)| stream.image_byte(place, byte)),
                None => stream.image(&image),
            }
            let runner = place as u64 % 2;
            chain_call(stream, &mut chain, lent, &mut image, 0, runner, (0, REPORT));
            sent.0 = Some(image);
        }
        if let Trial::Byte { image, place } = &self.0.trial {
            stream.image(image);
            stream.keep();
            for value in (0..=255).step_by(5) {
                let mut image = image.clone();
                image[*place] = value;
                stream.bring_back();
                stream.image_byte(*place, value);
                let (n, runner) = (1 + u64::from(value % 7), u64::from(value % 2));
                let lengths = (64, REPORT);
                chain_call(stream, &mut chain, lent, &mut image, n, runner, lengths);
            }
        }
        stream.tell_group();
        chain.line()
    }

    fn show(&self) -> String {
        self.0.told()
    }
}

/// A group's restores as conversions of the bytes to each version.
pub struct Converts(pub Group);

impl Converts {
    /// The group, where it is of restores; of every value of the bytes of a version 2 image two states do.
    pub fn of(group: Group) -> Option<Converts> {
        let wanted = match &group.trial {
            Trial::Value { .. } | Trial::Buffer { .. } => false,
            Trial::Byte { image, .. } if image.len() == IMAGE => {
                matches!(usize::from(group.base), 1 | UNCOUNTED)
            }
            Trial::Pair { image, .. } => image.len() != IMAGE,
            _ => true,
        };
        wanted.then_some(Converts(group))
    }
}

/// One conversion of a group, to a buffer of so many bytes, under the sheet.
fn chain_convert(
    stream: &mut Stream,
    chain: &mut Chain,
    image: &[u8],
    (version, length): (u64, usize),
    sheet: Sheet,
) {
    stream.convert(Of::Group, version, length);
    let mut buffer = pattern(length);
    let number = convert(image, &mut buffer, version, sheet);
    chain.called(number);
    chain.bytes(&buffer);
}

impl Item for Converts {
    fn name(&self) -> String {
        format!("{}, converted", self.0.name)
    }

    fn put(&self, stream: &mut Stream) -> String {
        let mut chain = Chain::default();
        stream.sheet(self.0.sheet);
        let mut sent = Sent(None);
        for variant in self.0.trial.variants() {
            let Variant::Restore(image) = variant else {
                continue;
            };
            match sent.changes(&image) {
                Some(changes) => changes
                    .into_iter()
                    .for_each(|(place, byte)| stream.image_byte(place, byte)),
                None => stream.image(&image),
            }
            for version in Version::BOTH {
                let wanted = (u64::from(version.number()), version.length());
                chain_convert(stream, &mut chain, &image, wanted, self.0.sheet);
            }
            sent.0 = Some(image);
        }
        stream.tell_group();
        chain.line()
    }

    fn show(&self) -> String {
        self.0.told()
    }
}

/// Images of both versions converted to versions of every kind, into buffers of many lengths.
pub struct Versions;

impl Item for Versions {
    fn name(&self) -> String {
        String::from("conversions to every version and length")
    }

    fn put(&self, stream: &mut Stream) -> String {
        let (mut chain, sheet) = (Chain::default(), Sheet::UPD546);
        stream.sheet(sheet);
        for (_, state) in bases::states() {
            let one = bases::image_in(Version::One, &bases::uncounted(&state));
            for image in [one, bases::image(&state)] {
                stream.image(&image);
                for version in [
                    0,
                    1,
                    2,
                    3,
                    256,
                    257,
                    258,
                    1 << 32 | 1,
                    1 << 63 | 2,
                    u64::MAX,
                ] {
                    for length in (0..4).chain(76..=100) {
                        chain_convert(stream, &mut chain, &image, (version, length), sheet);
                    }
                }
            }
        }
        stream.tell_group();
        chain.line()
    }

    fn show(&self) -> String {
        String::from("each legal state's images of version 1, with a count of 0, and 2, converted to versions 0 to 3 and wider numbers\n")
    }
}

/// Fresh images in buffers of every length, and calls with reports of every length.
pub struct Lengths;

impl Item for Lengths {
    fn name(&self) -> String {
        String::from("fresh images and reports of every length")
    }

    fn put(&self, stream: &mut Stream) -> String {
        let sheet = Sheet::UPD546;
        let rom = rom(sheet);
        let lent = (&rom[..], sheet);
        let mut chain = Chain::default();
        stream.sheet(sheet);
        stream.rom(&rom);
        stream.schedule(&[]);
        for length in 0..=200 {
            stream.fresh(length);
            let mut image = pattern(length);
            let number = fresh(&mut image);
            chain.called(number);
            chain.bytes(&image);
        }
        for state in bases::states().iter().map(|(_, state)| state) {
            for report in 0..=64 {
                let mut image = bases::image(state);
                stream.image(&image);
                let lengths = (40, report);
                chain_call(stream, &mut chain, lent, &mut image, 3, 0, lengths);
            }
        }
        stream.tell_group();
        chain.line()
    }

    fn show(&self) -> String {
        String::from("fresh images in buffers of 0 to 200 bytes; calls of 3 cycles on each legal state, with reports of 0 to 64\n")
    }
}

/// A group on states as values: its restores; its saves, and where one is done a restore of its image.
pub struct Values(pub Group);

impl Item for Values {
    fn name(&self) -> String {
        self.0.name.clone()
    }

    fn put(&self, stream: &mut Stream) -> String {
        let mut chain = Chain::default();
        stream.sheet(self.0.sheet);
        let mut sent = Sent(None);
        for variant in self.0.trial.variants() {
            match variant {
                Variant::Restore(bytes) => {
                    match sent.changes(&bytes) {
                        Some(changes) => changes
                            .into_iter()
                            .for_each(|(place, byte)| stream.buffer_byte(place, byte)),
                        None => stream.image(&bytes),
                    }
                    chain_restore(stream, &mut chain, &bytes, self.0.sheet);
                    sent.0 = Some(bytes);
                }
                Variant::Save(version, state, room) => {
                    let value = state_bytes(&state);
                    match sent.changes(&value) {
                        Some(changes) => changes
                            .into_iter()
                            .for_each(|(place, byte)| stream.value_byte(place, byte)),
                        None => stream.value(&state),
                    }
                    let mut buffer = pattern(room);
                    let number = save(version, &state, &mut buffer, self.0.sheet);
                    stream.save(Of::Group, version, room);
                    chain.called(number);
                    chain.bytes(&buffer);
                    if number == 0 {
                        let image = &buffer[..version.length()];
                        chain_restore(stream, &mut chain, image, self.0.sheet);
                    }
                    sent.0 = Some(value);
                }
            }
        }
        stream.tell_group();
        chain.line()
    }

    fn show(&self) -> String {
        self.0.told()
    }
}

fn chain_restore(stream: &mut Stream, chain: &mut Chain, bytes: &[u8], sheet: Sheet) {
    stream.restore(Of::Group, bytes.len());
    let (number, state) = restore(bytes, sheet);
    chain.called(number);
    chain.bytes(&state_bytes(&state));
}

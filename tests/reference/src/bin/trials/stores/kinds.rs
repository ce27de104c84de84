//! The groups of stores and recalls, by kind.

use reference::case::highest;
use reference::draw::Draw;
use reference::kinds::Kind;
use reference::sheets::{legal, wrong, HALF, LEAST, PAGE};
use reference::store::{ENTRY, NAME};
use reference::{save, Sheet, State, Version};

use super::steps::{Group, Maker};

const IMAGE: usize = 82;

pub const KINDS: [Kind<Group>; 9] = [
    ("numbers", numbers),
    ("lists", lists),
    ("torn", torn),
    ("lengths", lengths),
    ("bytes", bytes),
    ("tails", tails),
    ("names", names),
    ("images", images),
    ("sheets", sheets),
];

fn image_in(version: Version, state: &State) -> Vec<u8> {
    let mut image = vec![0; version.length()];
    assert_eq!(save(version, state, &mut image, Sheet::UPD546), 0);
    image
}

fn image_of(state: &State) -> Vec<u8> {
    image_in(Version::Two, state)
}

/// An image of this cycle.
fn image(cycle: u64) -> Vec<u8> {
    image_of(&State {
        cycle,
        ..State::fresh()
    })
}

/// Names that people would give.
const FULL: &[u8; NAME] = b"full    ";
const EMPTY: &[u8; NAME] = b"empty   ";
const NIGHT: &[u8; NAME] = b"at night";
const NEW: &[u8; NAME] = b"new     ";
const ZERO: &[u8; NAME] = &[0; NAME];

/// A store with these entries and so many unused ones.
fn store_of(entries: &[(&[u8; NAME], Vec<u8>)], unused: usize) -> Vec<u8> {
    let entry = |(name, image): &(&[u8; NAME], Vec<u8>)| [&name[..], image].concat();
    let mut bytes: Vec<u8> = entries.iter().flat_map(entry).collect();
    bytes.resize(bytes.len() + unused * ENTRY, 0);
    bytes
}

/// The three entries that most groups have.
fn three() -> [(&'static [u8; NAME], Vec<u8>); 3] {
    [
        (FULL, image(1)),
        (EMPTY, image_of(&highest())),
        (NIGHT, image(3)),
    ]
}

/// Single calls: each number, and each order of two.
fn numbers() -> Vec<Group> {
    let bad = Sheet {
        levels: 4,
        ..Sheet::UPD546
    };
    let (full, free) = (store_of(&three(), 0), store_of(&three(), 1));
    let (sound, none) = (image(9), vec![0; IMAGE]);
    let old = image_in(Version::One, &State::fresh());
    let torn = &full[..full.len() - 1];
    let rows: [(&str, &[u8], &[u8], &[u8], [u8; 2]); 16] = [
        ("a known name", &free, EMPTY, &sound, [0, 0]),
        ("a known name, full store", &full, NIGHT, &sound, [0, 0]),
        ("a new name", &free, NEW, &sound, [0, 52]),
        ("a new name, full store", &full, NEW, &sound, [53, 52]),
        ("no bytes", &[], NEW, &sound, [53, 52]),
        ("one entry", &[0; ENTRY], NEW, &sound, [0, 52]),
        ("no image, new name", &full, NEW, &none, [51, 52]),
        ("no image, known name", &full, FULL, &none, [51, 0]),
        ("version 1, known name", &free, FULL, &old, [51, 0]),
        ("version 1, new name", &full, NEW, &old, [51, 52]),
        ("a zero name", &free, ZERO, &sound, [51, 51]),
        ("a zero name, full store", &full, ZERO, &sound, [51, 51]),
        ("seven bytes", &free, &FULL[..7], &sound, [51, 51]),
        ("no name", &full, &[], &sound, [51, 51]),
        ("a torn store, known name", torn, FULL, &sound, [51, 51]),
        ("a torn store, new name", torn, NEW, &none, [51, 51]),
    ];
    let mut groups = Vec::new();
    for (words, store, name, image, due) in rows {
        for (sheet, due) in [(Sheet::UPD546, due), (bad, [71, 71])] {
            let begin = |call: &str| {
                let mut maker = Maker::new(format!("{words}, {} levels: {call}", sheet.levels));
                maker.sheet(sheet);
                maker.store(store);
                maker
            };
            let mut maker = begin("keep");
            maker.keep(name, image);
            groups.push(maker.answers(&[due[0]]));
            let mut maker = begin("recall");
            maker.recall(name);
            groups.push(maker.answers(&[due[1]]));
        }
    }
    groups
}

/// A name, often one of a few, some of which have zero bytes; at times none.
fn drawn_name(draw: &mut Draw) -> Vec<u8> {
    match draw.below(20) {
        0 => (0..draw.below(20)).map(|_| draw.byte()).collect(),
        1 => vec![0; NAME],
        2 => vec![0; draw.below(17) as usize],
        3 => NEW.to_vec(),
        _ => {
            // Names with zeros at their start, middle and end, some a byte apart.
            let mut name = draw.of(&[[0; NAME], *b"floor  0", [0, 0, 0, 7, 0, 0, 0, 0]]);
            name[draw.of(&[0, 7])] = 1;
            name.to_vec()
        }
    }
}

/// An image that the sheet has all of, as a rule; or one of version 1, of another length, or damaged.
fn drawn_image(draw: &mut Draw, sheet: Sheet) -> Vec<u8> {
    let mut state = draw.counted_state();
    state.ram.fill_with(|| draw.word());
    if !draw.one_in(16) {
        state = sheet.fitted(&state);
    }
    let mut image = image_of(&state);
    match draw.below(24) {
        0 => {
            state.count = 0;
            image = image_in(Version::One, &state);
        }
        1 => image.resize(draw.below(200) as usize, 0),
        2 => image[draw.below(82) as usize] ^= 1 << draw.below(8),
        3 => {
            image.push(0);
        }
        _ => {}
    }
    image
}

/// Drawn lists of stores and recalls from an empty store that nobody else writes.
fn lists() -> Vec<Group> {
    let mut draw = Draw::new(7);
    let mut groups = Vec::new();
    for list in 0..400 {
        let sheet = match list % 4 {
            0 => draw.sheet(),
            1 => draw.of(&[HALF, PAGE, LEAST]),
            _ => Sheet::UPD546,
        };
        let capacity = match list % 10 {
            0 => 0,
            1 => 1,
            _ => 1 + draw.below(8) as usize,
        };
        let mut maker = Maker::new(format!("list {list}, room for {capacity}"));
        maker.store(&vec![0; capacity * ENTRY]);
        for _ in 0..40 {
            // A refused call may have any sheet.
            let other = wrong(sheet);
            maker.sheet(if draw.one_in(20) {
                draw.of(&other)
            } else {
                sheet
            });
            let name = drawn_name(&mut draw);
            if draw.one_in(2) {
                maker.recall(&name);
            } else {
                let image = drawn_image(&mut draw, sheet);
                maker.keep(&name, &image);
            }
        }
        groups.push(maker.answers_among(&[0, 51, 52, 53, 71]));
    }
    groups
}

/// Every name of the three and a new one are recalled, and the first is stored again as it is.
fn tried(maker: &mut Maker, store: &[u8]) {
    for name in [FULL, EMPTY, NIGHT, NEW] {
        maker.store(store);
        maker.recall(name);
    }
    for name in [FULL, NEW] {
        maker.store(store);
        maker.keep(name, &image(1));
    }
}

/// A store that was being written when the power went: the first bytes are those of the new store, the others those of the old one.
fn torn() -> Vec<Group> {
    let all = three();
    let with = |place: usize, image: Vec<u8>| {
        let mut entries = all.clone();
        entries[place].1 = image;
        entries
    };
    let pairs = [
        ("a new entry", store_of(&all[..2], 2), store_of(&all, 1)),
        ("the first entry", store_of(&[], 2), store_of(&all[..1], 1)),
        ("the last entry", store_of(&all[..2], 1), store_of(&all, 0)),
        (
            "an entry replaced",
            store_of(&all, 1),
            store_of(&with(1, image(2)), 1),
        ),
        (
            "an entry replaced, full store",
            store_of(&all, 0),
            store_of(&with(2, image_of(&highest())), 0),
        ),
    ];
    let mut groups = Vec::new();
    for (words, before, after) in pairs {
        for (words, first, rest) in [
            (format!("{words}, written forwards"), &after, &before),
            (format!("{words}, written backwards"), &before, &after),
        ] {
            for from in (0..first.len()).step_by(ENTRY) {
                let mut maker = Maker::new(format!("{words}, torn from byte {from} on"));
                for place in from..=from + ENTRY {
                    tried(&mut maker, &[&first[..place], &rest[place..]].concat());
                }
                groups.push(maker.answers_among(&[0, 51, 52, 53]));
            }
        }
    }
    groups
}

/// A store cut at each byte, and zeros of each length.
fn lengths() -> Vec<Group> {
    let whole = store_of(&three(), 2);
    let mut groups = Vec::new();
    for from in (0..whole.len()).step_by(ENTRY) {
        for (words, bytes) in [("a store", whole.clone()), ("zeros", vec![0; whole.len()])] {
            let mut maker = Maker::new(format!("{words} cut from byte {from} on"));
            for length in from..=from + ENTRY {
                tried(&mut maker, &bytes[..length]);
            }
            groups.push(maker.answers_among(&[0, 51, 52, 53]));
        }
    }
    groups
}

/// Every byte of a store at every value.
fn bytes() -> Vec<Group> {
    let sound = store_of(&three()[..2], 1);
    let group = |place: usize| {
        let mut maker = Maker::new(format!("byte {place} of a store"));
        for value in 0..=255 {
            let mut store = sound.clone();
            store[place] = value;
            maker.store(&store);
            maker.recall(EMPTY);
            maker.keep(FULL, &image(1));
        }
        match place {
            // The names.
            0..8 => maker.answers(&[0]),
            90..98 => maker.answers(&[0, 52]),
            180.. => maker.answers(&[0, 51]),
            _ => maker.answers_among(&[0, 51]),
        }
    };
    (0..sound.len()).map(group).collect()
}

/// Every byte of the unused tail that isn't zero.
fn tails() -> Vec<Group> {
    let all = three();
    let mut groups = Vec::new();
    for (used, unused) in [(0, 1), (0, 2), (1, 2), (3, 1)] {
        let sound = store_of(&all[..used], unused);
        for value in [1, 128, 255] {
            let mut maker = Maker::new(format!("{used} used, {unused} not, {value} in the tail"));
            for place in used * ENTRY..sound.len() {
                let mut store = sound.clone();
                store[place] = value;
                maker.store(&store);
                maker.recall(FULL);
                maker.keep(FULL, &image(1));
            }
            groups.push(maker.answers(&[51]));
        }
        // A whole entry behind a zero name.
        let mut maker = Maker::new(format!("{used} used, {unused} not, an entry behind"));
        let behind = store_of(&[(NEW, image(4))], 0);
        let store = [&sound[..], &behind].concat();
        for name in [FULL, NEW] {
            maker.store(&store);
            maker.recall(name);
            maker.keep(name, &image(1));
        }
        groups.push(maker.answers(&[51]));
    }
    groups
}

fn names() -> Vec<Group> {
    let mut groups = names_twice();
    groups.extend(names_with_zeros());
    groups.extend(names_apart());
    groups.extend(many_names());
    let mut maker = Maker::new("names of each length");
    let store = store_of(&three(), 1);
    for length in 0..=40 {
        for byte in [0, b'n'] {
            maker.store(&store);
            let name = vec![byte; length];
            maker.recall(&name);
            maker.keep(&name, &image(1));
        }
    }
    groups.push(maker.answers(&[0, 51, 52]));
    groups
}

/// A name twice, at every two places of five.
fn names_twice() -> Vec<Group> {
    let five: [&[u8; NAME]; 5] = [FULL, EMPTY, NIGHT, b"morning ", b"evening "];
    let mut groups = Vec::new();
    for unused in [0, 1] {
        let mut maker = Maker::new(format!("a name twice, {unused} unused"));
        for one in 0..5 {
            for other in one + 1..5 {
                let mut names = five;
                names[other] = five[one];
                let entries: Vec<_> = (1..).zip(names).map(|(k, name)| (name, image(k))).collect();
                let store = store_of(&entries, unused);
                for name in five {
                    maker.store(&store);
                    maker.recall(name);
                    maker.keep(name, &image(9));
                }
            }
        }
        groups.push(maker.answers(&[51]));
    }
    groups
}

/// Names with zero bytes at every set of places, in a store that they fill.
fn names_with_zeros() -> Vec<Group> {
    let names: Vec<[u8; NAME]> = (1..=255_u8)
        .map(|bits| std::array::from_fn(|place| 5 * (bits >> place & 1)))
        .collect();
    let mut maker = Maker::new("names with zero bytes");
    maker.store(&vec![0; 255 * ENTRY]);
    for (k, name) in (1..).zip(&names) {
        maker.keep(name, &image(k));
    }
    for name in &names {
        maker.recall(name);
    }
    maker.keep(NEW, &image(9));
    maker.recall(ZERO);
    vec![maker.answers(&[0, 51, 53])]
}

/// Two names that differ in one bit, wherever it is.
fn names_apart() -> Vec<Group> {
    let mut groups = Vec::new();
    for base in [*FULL, [0; NAME], [255; NAME]] {
        let mut maker = Maker::new(format!("names a bit apart from {base:?}"));
        for bit in 0..64 {
            let mut other = base;
            other[bit / 8] ^= 1 << (bit % 8);
            maker.store(&[0; 2 * ENTRY]);
            maker.keep(&base, &image(1));
            maker.keep(&other, &image(2));
            maker.recall(&base);
            maker.recall(&other);
        }
        let zero = base == [0; NAME];
        groups.push(maker.answers(if zero { &[0, 51] } else { &[0] }));
    }
    groups
}

/// Stores of some sizes that are filled to the last entry, and then one more; every entry is replaced.
fn many_names() -> Vec<Group> {
    let mut groups = Vec::new();
    for capacity in [1, 2, 16, 45, 200] {
        let name = |k: u64| format!("{k:>8}").into_bytes();
        let mut maker = Maker::new(format!("a store of {capacity} entries"));
        maker.store(&vec![0; capacity as usize * ENTRY]);
        for k in 0..=capacity {
            maker.keep(&name(k), &image(k));
        }
        let step = 1 + capacity as usize / 20;
        for k in (0..=capacity).rev().step_by(step) {
            maker.recall(&name(k));
            maker.keep(&name(k), &image(1_000 + k));
            maker.recall(&name(k));
        }
        groups.push(maker.answers(&[0, 52, 53]));
    }
    groups
}

/// Images that are given: of each length, of version 1, and with each byte damaged.
fn images() -> Vec<Group> {
    let store = store_of(&three(), 1);
    let mut groups = Vec::new();
    for (words, bytes) in [
        ("version 2", image_of(&highest())),
        (
            "version 1",
            image_in(
                Version::One,
                &State {
                    count: 0,
                    ..highest()
                },
            ),
        ),
    ] {
        let mut maker = Maker::new(format!("an image of {words}, each length"));
        for length in 0..=200 {
            let mut image = bytes.clone();
            image.resize(length, 0);
            maker.store(&store);
            maker.keep(NIGHT, &image);
            maker.recall(NIGHT);
        }
        groups.push(maker.answers(&[0, 51]));
        let mut maker = Maker::new(format!("an image of {words}, each byte"));
        for place in 0..bytes.len() {
            for value in [0, 1, 2, 4, 5, 8, 15, 16, 63, 64, 127, 128, 255] {
                let mut image = bytes.clone();
                image[place] = value;
                maker.store(&store);
                maker.keep(NEW, &image);
            }
        }
        let old = bytes.len() < IMAGE;
        groups.push(maker.answers(if old { &[51] } else { &[0, 51] }));
    }
    groups
}

/// Images that one sheet accepts and another doesn't, given and kept; and sheets that are none.
fn sheets() -> Vec<Group> {
    let mut draw = Draw::new(11);
    let mut chips = legal();
    chips.push(Sheet::UPD546);
    let mut groups = Vec::new();
    for &one in &chips {
        let Sheet { rom, rows, levels } = one;
        let mut maker = Maker::new(format!(
            "a state of {rom}, {rows}, {levels} under other sheets"
        ));
        let mut state = one.fitted(&highest());
        state.cycle = draw.below(1 << 20);
        let (fresh, held) = (image(0), image_of(&state));
        let kept = store_of(&[(FULL, fresh.clone()), (NIGHT, held.clone())], 1);
        for &other in &chips {
            maker.sheet(other);
            maker.store(&[0; 2 * ENTRY]);
            maker.keep(NIGHT, &held);
            maker.recall(NIGHT);
            for name in [FULL, NIGHT, NEW] {
                maker.store(&kept);
                maker.recall(name);
                maker.keep(name, &fresh);
            }
        }
        // What the least chip has, every one has.
        let least = rows == 0 && levels == 1;
        groups.push(maker.answers(if least { &[0, 52] } else { &[0, 51, 52] }));
    }
    for (words, store) in [
        ("a sound store", store_of(&three(), 1)),
        ("a torn store", store_of(&three(), 1)[1..].to_vec()),
    ] {
        let mut maker = Maker::new(format!("{words} under sheets that are none"));
        for sheet in wrong(HALF) {
            maker.sheet(sheet);
            for (name, image) in [(&FULL[..], image(1)), (ZERO, Vec::new())] {
                maker.store(&store);
                maker.recall(name);
                maker.keep(name, &image);
            }
        }
        groups.push(maker.answers(&[71]));
    }
    groups
}

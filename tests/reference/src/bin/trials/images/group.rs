//! One group of trials: its variants, and what they give.

use reference::case::{next, top};
use reference::{restore, save, Sheet, State, Version};

use super::bases::{state_of, Shape};

/// The long buffer of a save of a value; the short one lacks a byte.
const LONG: usize = 90;

/// The bytes that variants are made of: an image, a value.
pub type Base = Vec<u8>;

#[derive(Clone)]
pub enum Trial {
    /// A byte of an image at all its values.
    Byte { image: Base, place: usize },
    /// Two bytes of an image at all their values.
    Pair { image: Base, place: usize },
    /// An image cut or extended to each length from 0 to 200; by zeros where the seed is 0.
    Length { image: Base, seed: u32 },
    /// The first bytes of one image and the rest of the other, torn at each place.
    Torn { first: Base, rest: Base },
    /// Bytes of the generator in a shape, of lengths from the shortest on.
    Drawn {
        shape: Shape,
        tries: u32,
        shortest: u8,
        lengths: u8,
        seed: u32,
    },
    /// Bytes of a state as a value at all their values, saved to a short buffer and to a long one, in both
    /// versions.
    Value {
        state: Base,
        place: usize,
        count: usize,
    },
    /// A state saved in a version to buffers of each length from 0 to 200.
    Buffer { state: Base, version: Version },
}

/// A trial with the numbers that its tries have to be answered by, no more and no fewer; the place of its
/// base among those of its kind, and the place of the byte where it has one.
#[derive(Clone)]
pub struct Group {
    pub name: String,
    pub trial: Trial,
    pub base: u8,
    pub at: u8,
    pub numbers: Vec<u8>,
    /// The sheet of all its tries.
    pub sheet: Sheet,
}

/// One try.
pub enum Variant {
    Restore(Vec<u8>),
    Save(Version, State, usize),
}

/// What the tries of a group gave.
#[derive(Clone, Default, PartialEq, Eq, Debug)]
pub struct Tally {
    pub tries: u32,
    /// By number.
    pub counts: std::collections::BTreeMap<u8, u32>,
    pub same: u32,
}

impl Tally {
    pub fn count(&self, number: u8) -> u32 {
        self.counts.get(&number).copied().unwrap_or(0)
    }

    fn add(&mut self, number: u8, same: bool) {
        self.tries += 1;
        *self.counts.entry(number).or_default() += 1;
        self.same += u32::from(same);
    }
}

impl Group {
    pub fn tally(&self) -> Tally {
        let mut tally = Tally::default();
        for variant in self.trial.variants() {
            let (number, same) = match variant {
                Variant::Restore(bytes) => tried_restore(&bytes, self.sheet),
                Variant::Save(version, state, room) => {
                    tried_save(version, &state, room, self.sheet)
                }
            };
            tally.add(number, same);
        }
        tally
    }

    pub fn told(&self) -> String {
        let (word, base, at) = (self.trial.word(), self.base, self.at);
        let Group { numbers, sheet, .. } = self;
        format!("{word}, base {base}, {at}, {sheet:?}: to be answered by {numbers:?}\n")
    }
}

impl Trial {
    pub fn word(&self) -> &'static str {
        match self {
            Trial::Byte { .. } => "byte",
            Trial::Pair { .. } => "pair",
            Trial::Length { .. } => "length",
            Trial::Torn { .. } => "torn",
            Trial::Drawn { .. } => "drawn",
            Trial::Value { .. } => "value",
            Trial::Buffer { .. } => "buffer",
        }
    }

    pub fn variants(&self) -> Vec<Variant> {
        match self {
            Trial::Byte { image, place } => (0..=255)
                .map(|value| Variant::Restore(with(image, *place, &[value])))
                .collect(),
            Trial::Pair { image, place } => (0..=0xFFFF_u16)
                .map(|value| Variant::Restore(with(image, *place, &value.to_be_bytes())))
                .collect(),
            Trial::Length { image, seed } => lengths(image, *seed),
            Trial::Torn { first, rest } => (0..=first.len())
                .map(|place| Variant::Restore([&first[..place], &rest[place..]].concat()))
                .collect(),
            Trial::Drawn {
                shape,
                tries,
                shortest,
                lengths,
                seed,
            } => drawn(shape, *tries, *shortest, *lengths, *seed),
            Trial::Value {
                state,
                place,
                count,
            } => values(state, *place, *count),
            Trial::Buffer { state, version } => (0..=200)
                .map(|room| Variant::Save(*version, state_of(state), room))
                .collect(),
        }
    }
}

fn with(bytes: &[u8], place: usize, values: &[u8]) -> Vec<u8> {
    let mut bytes = bytes.to_vec();
    bytes[place..place + values.len()].copy_from_slice(values);
    bytes
}

/// Every try takes a number of the generator, and every byte one, also a byte of the image.
fn lengths(image: &[u8], seed: u32) -> Vec<Variant> {
    let mut s = seed;
    let mut variants = Vec::new();
    for length in 0..=200 {
        s = next(s);
        let mut bytes = Vec::new();
        for place in 0..length {
            s = next(s);
            let extension = if seed == 0 { 0 } else { top(s) };
            bytes.push(image.get(place).copied().unwrap_or(extension));
        }
        variants.push(Variant::Restore(bytes));
    }
    variants
}

fn drawn(shape: &Shape, tries: u32, shortest: u8, lengths: u8, seed: u32) -> Vec<Variant> {
    let mut s = seed;
    let mut variants = Vec::new();
    for _ in 0..tries {
        s = next(s);
        let length = usize::from(shortest) + usize::from(top(s) % lengths);
        let mut bytes = Vec::new();
        for place in 0..length {
            s = next(s);
            bytes.push(match shape.get(place) {
                Some(&(lowest, count)) if count > 0 => lowest + top(s) % count,
                _ => top(s),
            });
        }
        variants.push(Variant::Restore(bytes));
    }
    variants
}

fn values(state: &[u8], place: usize, count: usize) -> Vec<Variant> {
    let mut variants = Vec::new();
    for place in place..place + count {
        for value in 0..=255 {
            let state = state_of(&with(state, place, &[value]));
            for version in Version::BOTH {
                for room in [version.length() - 1, LONG] {
                    variants.push(Variant::Save(version, state.clone(), room));
                }
            }
        }
    }
    variants
}

/// Number, and whether a save of the state in the image's version writes the same bytes.
fn tried_restore(bytes: &[u8], sheet: Sheet) -> (u8, bool) {
    let (number, state) = restore(bytes, sheet);
    let version = Version::BOTH
        .into_iter()
        .find(|version| version.length() == bytes.len());
    let saved_again = |version: Version| {
        let mut again = vec![0; version.length()];
        save(version, &state, &mut again, sheet) == 0 && again == *bytes
    };
    (number, number == 0 && version.is_some_and(saved_again))
}

/// Number, and whether a restore of its image answers the same state.
fn tried_save(version: Version, state: &State, room: usize, sheet: Sheet) -> (u8, bool) {
    let mut buffer = vec![0; room];
    let number = save(version, state, &mut buffer, sheet);
    let again = |image: &[u8]| restore(image, sheet) == (0, state.clone());
    (number, number == 0 && again(&buffer[..version.length()]))
}

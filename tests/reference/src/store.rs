//! Request R-7, "States to come back to": images that are kept under names.

use std::collections::BTreeSet;

use crate::image::{restore, Version};
use crate::numbers::{FINISHED, NAME_UNKNOWN, SHEET, SHORT_BUFFER, STORE_FULL, STORE_MALFORMED};
use crate::sheet::Sheet;

/// "names of exactly eight bytes".
pub const NAME: usize = 8;

/// "each entry name then image"; R-8: "R-7's entries hold version 2".
pub const ENTRY: usize = NAME + 82;

/// Keeps an image under a name: 71, 51, 53. "A refused store changes nothing."
pub fn store(store: &mut [u8], name: &[u8], image: &[u8], sheet: Sheet) -> u8 {
    match stored(store, name, image, sheet) {
        Ok(after) => {
            store.copy_from_slice(&after);
            FINISHED
        }
        Err(number) => number,
    }
}

/// The store with the image in it.
fn stored(store: &[u8], name: &[u8], image: &[u8], sheet: Sheet) -> Result<Vec<u8>, u8> {
    let (mut book, name) = judged(store, name, sheet)?;
    let image = accepted(image, sheet).ok_or(STORE_MALFORMED)?;
    match book.place_of(&name) {
        // "Storing under a known name replaces that entry alone."
        Some(place) => book.entries[place].image = image,
        None if book.entries.len() == book.capacity => return Err(STORE_FULL),
        // "in the order first stored"
        None => book.entries.push(Entry { name, image }),
    }
    Ok(book.bytes())
}

/// Hands back "the part of the store that holds the last image stored under that name (an empty part when
/// refused)": 71, 51, 52.
pub fn recall<'a>(store: &'a [u8], name: &[u8], sheet: Sheet) -> (u8, &'a [u8]) {
    let found = |(book, name): (Book, Name)| book.place_of(&name).ok_or(NAME_UNKNOWN);
    match judged(store, name, sheet).and_then(found) {
        Ok(place) => (FINISHED, &store[place * ENTRY..][NAME..ENTRY]),
        Err(number) => (number, &[]),
    }
}

/// The same for C, which gets a copy: after the recall's own numbers 1 for a buffer that is shorter than the
/// image; bytes past it stay.
pub fn recall_to(store: &[u8], name: &[u8], image: &mut [u8], sheet: Sheet) -> u8 {
    let (number, part) = recall(store, name, sheet);
    if number != FINISHED {
        return number;
    }
    match image.get_mut(..part.len()) {
        Some(image) => {
            image.copy_from_slice(part);
            FINISHED
        }
        None => SHORT_BUFFER,
    }
}

/// A name that isn't zero.
type Name = [u8; NAME];

struct Entry {
    name: Name,
    image: Vec<u8>,
}

/// A store that isn't malformed: its used entries, and how many it has room for.
struct Book {
    entries: Vec<Entry>,
    capacity: usize,
}

impl Book {
    /// "The lent length is a multiple of the entry's; a zero name, never legal, begins the unused tail, which is all
    /// zero."
    fn of(store: &[u8], sheet: Sheet) -> Option<Book> {
        let entries = store.chunks_exact(ENTRY);
        if !entries.remainder().is_empty() {
            return None;
        }
        let mut book = Book {
            entries: Vec::new(),
            capacity: entries.len(),
        };
        let mut names = BTreeSet::new();
        let mut unused = false;
        for entry in entries {
            unused |= entry[..NAME] == [0; NAME];
            if unused {
                // "which is all zero"
                if entry.iter().any(|&byte| byte != 0) {
                    return None;
                }
                continue;
            }
            let name = legal(&entry[..NAME])?;
            // "a name twice included"
            if !names.insert(name) {
                return None;
            }
            let image = accepted(&entry[NAME..], sheet)?;
            book.entries.push(Entry { name, image });
        }
        Some(book)
    }

    fn place_of(&self, name: &Name) -> Option<usize> {
        self.entries.iter().position(|entry| entry.name == *name)
    }

    fn bytes(&self) -> Vec<u8> {
        let entry = |entry: &Entry| [&entry.name[..], &entry.image].concat();
        let mut bytes: Vec<u8> = self.entries.iter().flat_map(entry).collect();
        bytes.resize(self.capacity * ENTRY, 0);
        bytes
    }
}

/// What either call judges first. R-11: 71 is "before all else"; "51 the store .. is malformed, .. or the name isn't
/// eight bytes or is zero".
fn judged(store: &[u8], name: &[u8], sheet: Sheet) -> Result<(Book, Name), u8> {
    if !sheet.is_legal() {
        return Err(SHEET);
    }
    let book = Book::of(store, sheet).ok_or(STORE_MALFORMED)?;
    let name = legal(name).ok_or(STORE_MALFORMED)?;
    Ok((book, name))
}

fn legal(name: &[u8]) -> Option<Name> {
    let name: Name = name.try_into().ok()?;
    (name != [0; NAME]).then_some(name)
}

/// An image of version 2 that isn't "malformed, as a restore judges it".
fn accepted(image: &[u8], sheet: Sheet) -> Option<Vec<u8>> {
    let sound = image.len() == Version::Two.length() && restore(image, sheet).0 == FINISHED;
    sound.then(|| image.to_vec())
}

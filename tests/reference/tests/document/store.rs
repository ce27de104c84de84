//! Request R-7, "States to come back to", sentence by sentence.

use reference::call::fresh;
use reference::sheets::{legal, wrong, HALF, LEAST, PAGE};
use reference::store::{recall, recall_to, store, ENTRY, NAME};
use reference::{restore, run, save, Runner, Sheet, State, Version};

use crate::common::{any_panel, any_state, Draw};

const UPD546: Sheet = Sheet::UPD546;
const IMAGE: usize = 82;

fn image_of(state: &State) -> Vec<u8> {
    let mut image = vec![0; IMAGE];
    assert_eq!(save(Version::Two, state, &mut image, UPD546), 0);
    image
}

/// An image that differs by its Acc.
fn image(acc: u8) -> Vec<u8> {
    image_of(&State {
        acc,
        ..State::fresh()
    })
}

/// The name of these letters, filled up with spaces.
fn name(letters: &str) -> [u8; NAME] {
    let mut name = [b' '; NAME];
    name[..letters.len()].copy_from_slice(letters.as_bytes());
    name
}

/// A store with these entries and so many unused ones.
fn store_of(entries: &[(&str, u8)], unused: usize) -> Vec<u8> {
    let entry = |&(letters, acc): &(&str, u8)| [&name(letters)[..], &image(acc)].concat();
    let mut bytes: Vec<u8> = entries.iter().flat_map(entry).collect();
    bytes.resize(bytes.len() + unused * ENTRY, 0);
    bytes
}

/// Both calls are refused with this number, and the store stays.
fn is_refused(given: &[u8], name: &[u8], sheet: Sheet, number: u8) {
    let mut after = given.to_vec();
    assert_eq!(store(&mut after, name, &image(1), sheet), number);
    assert_eq!(after, given);
    assert_eq!(recall(given, name, sheet), (number, &[][..]));
}

/// Neither call finds fault with the store: a name that it hasn't is 52, or 53 where it is full.
fn is_well_formed(given: &[u8], sheet: Sheet) -> bool {
    let unknown = name("unknown");
    let number = recall(given, &unknown, sheet).0;
    let stored = store(&mut given.to_vec(), &unknown, &image(0), sheet);
    assert!(matches!((number, stored), (52, 0 | 53) | (51, 51)));
    number == 52
}

/// "A lent store keeps images under names of exactly eight bytes, in the order first stored, each entry name then image."
#[test]
fn entries_stand_in_the_order_first_stored() {
    let mut lent = vec![0; 4 * ENTRY];
    for (letters, acc) in [("full", 1), ("empty", 2), ("all", 3)] {
        assert_eq!(store(&mut lent, &name(letters), &image(acc), UPD546), 0);
    }
    assert_eq!(lent, store_of(&[("full", 1), ("empty", 2), ("all", 3)], 1));
    assert_eq!((NAME, ENTRY), (8, 90));
}

/// "Storing under a known name replaces that entry alone", in its place; in a full store too.
#[test]
fn a_known_name_is_replaced_in_its_place() {
    for unused in [0, 1, 3] {
        let all = [("full", 1), ("empty", 2), ("all", 3)];
        for place in 0..3 {
            let mut lent = store_of(&all, unused);
            let mut due = all;
            due[place].1 = 9;
            assert_eq!(store(&mut lent, &name(all[place].0), &image(9), UPD546), 0);
            assert_eq!(lent, store_of(&due, unused));
        }
    }
}

/// "The lent length is a multiple of the entry's": each length from 0 to four entries and a byte more.
#[test]
fn the_length_is_a_multiple_of_the_entrys() {
    let whole = store_of(&[("full", 1), ("empty", 2), ("all", 3)], 2);
    for length in 0..=whole.len() {
        let torn = &whole[..length];
        assert_eq!(is_well_formed(torn, UPD546), length % 90 == 0, "{length}");
        // Entries before R-8 had 81 bytes of image: such a store is no store.
        assert_eq!(is_well_formed(&vec![0; length], UPD546), length % 90 == 0);
    }
}

/// A store of no bytes is empty and full; an empty one is any legal length of zeros.
#[test]
fn an_empty_store() {
    assert_eq!(store(&mut [], &name("full"), &image(1), UPD546), 53);
    assert_eq!(recall(&[], &name("full"), UPD546), (52, &[][..]));
    for entries in [1, 2, 16, 200] {
        let mut lent = vec![0; entries * ENTRY];
        assert_eq!(recall(&lent, &name("full"), UPD546), (52, &[][..]));
        assert_eq!(store(&mut lent, &name("full"), &image(1), UPD546), 0);
        assert_eq!(lent, store_of(&[("full", 1)], entries - 1));
        assert_eq!(
            recall(&lent, &name("full"), UPD546),
            (0, &image(1)[..]),
            "{entries}"
        );
    }
}

/// "a zero name, never legal, begins the unused tail, which is all zero": every byte of it.
#[test]
fn the_unused_tail_is_all_zero() {
    for (used, unused) in [(0, 1), (0, 3), (1, 1), (2, 2)] {
        let entries = [("full", 1), ("empty", 2)];
        let sound = store_of(&entries[..used], unused);
        assert!(is_well_formed(&sound, UPD546));
        for place in used * ENTRY..sound.len() {
            let mut lent = sound.clone();
            lent[place] = 1;
            is_refused(&lent, &name("full"), UPD546, 51);
        }
    }
    // An entry behind the first zero name isn't used, whatever it holds.
    let mut lent = store_of(&[("full", 1), ("empty", 2), ("all", 3)], 0);
    lent[ENTRY..ENTRY + NAME].fill(0);
    is_refused(&lent, &name("full"), UPD546, 51);
    lent[ENTRY..2 * ENTRY].fill(0);
    is_refused(&lent, &name("full"), UPD546, 51);
    lent[2 * ENTRY..].fill(0);
    assert_eq!(lent, store_of(&[("full", 1)], 2));
    assert_eq!(recall(&lent, &name("full"), UPD546).0, 0);
}

/// "the store (a name twice included)": wherever the two stand, and whichever name is asked for.
#[test]
fn a_name_twice_is_51() {
    let all = [("full", 1), ("empty", 2), ("all", 3), ("none", 4)];
    for one in 0..4 {
        for other in (0..4).filter(|&other| other != one) {
            let mut entries = all;
            entries[other].0 = all[one].0;
            for unused in [0, 1] {
                let lent = store_of(&entries, unused);
                for asked in ["full", "empty", "all", "none", "other"] {
                    is_refused(&lent, &name(asked), UPD546, 51);
                }
            }
        }
    }
    // One bit more and it is another name.
    let mut lent = store_of(&[("full", 1), ("full", 2)], 0);
    lent[ENTRY + 7] ^= 0x80;
    assert_eq!(recall(&lent, &name("full"), UPD546), (0, &image(1)[..]));
}

/// "an image is malformed, as a restore judges it": 31 to 34, of the image given and of those kept alike.
#[test]
fn an_image_that_a_restore_refuses_is_51() {
    let mut draw = Draw::new(7);
    let mut numbers = [0; 256];
    for _ in 0..3_000 {
        let mut bytes = image_of(&any_state(&mut draw));
        let place = draw.below(82) as usize;
        bytes[place] = draw.byte();
        let number = restore(&bytes, UPD546).0;
        numbers[usize::from(number)] += 1;
        let due = if number == 0 { 0 } else { 51 };
        let mut lent = store_of(&[("full", 1)], 1);
        assert_eq!(store(&mut lent, &name("all"), &bytes, UPD546), due);
        // The same bytes as an entry that nobody asks for.
        let mut lent = store_of(&[("full", 1), ("all", 2)], 1);
        lent[ENTRY + NAME..2 * ENTRY].copy_from_slice(&bytes);
        assert_eq!(recall(&lent, &name("full"), UPD546).0, due);
        assert_eq!(
            store(&mut lent.clone(), &name("full"), &image(1), UPD546),
            due
        );
    }
    assert!([0, 32, 33, 34]
        .into_iter()
        .all(|number| numbers[number] > 50));
    for length in (0..200).filter(|&length| length != IMAGE) {
        let mut bytes = image(1);
        bytes.resize(length, 0);
        let mut lent = store_of(&[], 1);
        assert_eq!(store(&mut lent, &name("all"), &bytes, UPD546), 51);
        assert_eq!(lent, [0; ENTRY]);
    }
}

/// "R-7's entries hold version 2, else 51": an image of version 1 that a restore takes isn't stored, nor an entry's.
#[test]
fn an_image_of_version_1_is_51() {
    let mut old = vec![0; 81];
    assert_eq!(save(Version::One, &State::fresh(), &mut old, UPD546), 0);
    assert_eq!(restore(&old, UPD546), (0, State::fresh()));
    let mut lent = store_of(&[("full", 1)], 1);
    assert_eq!(store(&mut lent, &name("all"), &old, UPD546), 51);
    assert_eq!(lent, store_of(&[("full", 1)], 1));
    // With its missing byte, and with entries of 89 bytes.
    let entry = [&name("full")[..], &old].concat();
    is_refused(&[&entry[..], &[0]].concat(), &name("full"), UPD546, 51);
    is_refused(&entry, &name("full"), UPD546, 51);
    is_refused(&entry.repeat(90), &name("full"), UPD546, 51);
}

/// "the name isn't eight bytes or is zero" is 51 of a recall too, and not 52.
#[test]
fn a_name_has_eight_bytes_and_isnt_zero() {
    for lent in [store_of(&[], 0), store_of(&[], 1), store_of(&[("n", 1)], 1)] {
        for length in (0..20).filter(|&length| length != NAME) {
            is_refused(&lent, &vec![b'n'; length], UPD546, 51);
            is_refused(&lent, &vec![0; length], UPD546, 51);
        }
        is_refused(&lent, &[0; NAME], UPD546, 51);
    }
}

/// Only all eight zero is the zero name: a name may have zero bytes, at its start too.
#[test]
fn a_name_may_have_zero_bytes() {
    let mut lent = vec![0; 255 * ENTRY];
    let names: Vec<[u8; NAME]> = (1..=255_u8)
        .map(|bits| std::array::from_fn(|place| 5 * (bits >> place & 1)))
        .collect();
    for (place, name) in names.iter().enumerate() {
        assert_eq!(store(&mut lent, name, &image(place as u8 % 16), UPD546), 0);
    }
    for (place, name) in names.iter().enumerate() {
        let part = (0, &image(place as u8 % 16)[..]);
        assert_eq!(recall(&lent, name, UPD546), part);
    }
    is_refused(&lent, &[0; NAME], UPD546, 51);
    assert_eq!(store(&mut lent, &name("one more"), &image(1), UPD546), 53);
}

/// "in this order 51 ..; 52 no such name to recall; 53 no unused entry for a new name"; 71 before them.
#[test]
fn the_order_of_the_numbers() {
    let full = store_of(&[("full", 1), ("all", 2)], 0);
    let new = name("new");
    let number = |given: &[u8], name: &[u8], image: &[u8], sheet: Sheet| {
        let mut lent = given.to_vec();
        let number = store(&mut lent, name, image, sheet);
        assert!(number == 0 || lent == given);
        number
    };
    assert_eq!(number(&full, &new, &image(1), UPD546), 53);
    assert_eq!(recall(&full, &new, UPD546).0, 52);
    // A bad image, name or store under a new name into a full store.
    assert_eq!(number(&full, &new, &[0; 82], UPD546), 51);
    assert_eq!(number(&full, &[0; 8], &image(1), UPD546), 51);
    assert_eq!(number(&full[1..], &new, &image(1), UPD546), 51);
    assert_eq!(recall(&full, &[0; 8], UPD546).0, 51);
    assert_eq!(recall(&full[1..], &new, UPD546).0, 51);
    // A bad image under a known name.
    assert_eq!(number(&full, &name("all"), &[0; 82], UPD546), 51);
    for sheet in legal().into_iter().flat_map(wrong) {
        is_refused(&full, &name("all"), sheet, 71);
        is_refused(&full, &new, sheet, 71);
        is_refused(&full[1..], &[0; 8], sheet, 71);
        assert_eq!(number(&full[1..], &[0; 7], &[0; 3], sheet), 71);
    }
}

/// the sheet judges every image of the store and the one given: what one sheet has, another hasn't.
#[test]
fn the_sheet_judges_every_image() {
    let mut state = State::fresh();
    state.ram[0x20] = 8;
    state.stack[1] = 5;
    let bytes = image_of(&state);
    // Row 2 and the second level.
    let has = |sheet: Sheet| sheet.rows >> 2 & 1 == 1 && sheet.levels > 1;
    let sheets = || legal().into_iter().chain([UPD546]);
    assert!(sheets().any(has) && has(PAGE) && !has(HALF) && !has(LEAST));
    for sheet in sheets() {
        let due = if has(sheet) { 0 } else { 51 };
        let mut lent = vec![0; 2 * ENTRY];
        assert_eq!(store(&mut lent, &name("all"), &bytes, sheet), due);
        // Kept under a larger sheet, beside a name that is asked for.
        let mut lent = vec![0; 3 * ENTRY];
        assert_eq!(store(&mut lent, &name("full"), &image(0), UPD546), 0);
        assert_eq!(store(&mut lent, &name("all"), &bytes, UPD546), 0);
        assert_eq!(recall(&lent, &name("full"), sheet).0, due);
        assert_eq!(store(&mut lent, &name("new"), &image(0), sheet), due);
    }
}

/// "a recall hands back the part of the store that holds the .. image": its very bytes, without the name.
#[test]
fn a_recall_hands_back_a_part_of_the_store() {
    let lent = store_of(&[("full", 1), ("empty", 2), ("all", 3)], 2);
    for (place, letters) in ["full", "empty", "all"].into_iter().enumerate() {
        let (number, part) = recall(&lent, &name(letters), UPD546);
        assert_eq!((number, part.len()), (0, IMAGE));
        assert!(std::ptr::eq(part.as_ptr(), &lent[ENTRY * place + NAME]));
    }
}

/// From C: the first 82 bytes of a buffer are written; 1, behind the recall's own numbers, where it is shorter.
#[test]
fn a_recall_to_a_buffer() {
    let lent = store_of(&[("full", 1), ("all", 2)], 0);
    for length in 0..100 {
        let mut buffer = vec![7; length];
        let number = recall_to(&lent, &name("all"), &mut buffer, UPD546);
        let mut due = vec![7; length];
        if length >= 82 {
            due[..82].copy_from_slice(&image(2));
        }
        assert_eq!((number, buffer), (u8::from(length < 82), due));
        let mut buffer = vec![7; length];
        for (given, asked, sheet, number) in [
            (&lent[..], name("new"), UPD546, 52),
            (&lent, [0; 8], UPD546, 51),
            (&lent[1..], name("all"), UPD546, 51),
            (
                &lent,
                name("all"),
                Sheet {
                    levels: 4,
                    ..UPD546
                },
                71,
            ),
        ] {
            assert_eq!(recall_to(given, &asked, &mut buffer, sheet), number);
            assert_eq!(buffer, vec![7; length]);
        }
    }
}

/// "For every list of stores and recalls from an empty store that nobody else writes, a recall hands back .. the last image stored
/// under that name .., and a run from it equals a run from the stored state with the same runner, ROM, schedule, n and log."
#[test]
fn a_run_from_what_is_recalled_is_a_run_from_the_stored_state() {
    let mut draw = Draw::new(77);
    let (mut recalled, mut replaced, mut refused) = (0, 0, [0; 256]);
    for _ in 0..600 {
        let sheet = if draw.one_in(2) { UPD546 } else { draw.sheet() };
        let capacity = draw.below(5) as usize;
        let mut lent = vec![0; capacity * ENTRY];
        // What was stored, in the order first stored.
        let mut book: Vec<([u8; NAME], State)> = Vec::new();
        for _ in 0..30 {
            let mut asked = [0; NAME];
            asked[draw.below(8) as usize] = draw.upto(1);
            let known = book.iter().position(|(name, _)| *name == asked);
            if draw.one_in(2) {
                let state = any_state(&mut draw);
                let state = if draw.one_in(4) {
                    state
                } else {
                    sheet.fitted(&state)
                };
                let before = lent.clone();
                let number = store(&mut lent, &asked, &image_of(&state), sheet);
                refused[usize::from(number)] += 1;
                let bad = asked == [0; NAME] || sheet.fitted(&state) != state;
                match known {
                    _ if bad => assert_eq!(number, 51),
                    Some(place) => {
                        assert_eq!(number, 0);
                        book[place].1 = state;
                        replaced += 1;
                    }
                    None if book.len() == capacity => assert_eq!(number, 53),
                    None => {
                        assert_eq!(number, 0);
                        book.push((asked, state));
                    }
                }
                assert!(number == 0 || lent == before);
                continue;
            }
            let (number, part) = recall(&lent, &asked, sheet);
            refused[usize::from(number)] += 1;
            let Some(place) = known else {
                let due = if asked == [0; NAME] { 51 } else { 52 };
                assert_eq!((number, part), (due, &[][..]));
                continue;
            };
            let state = &book[place].1;
            assert_eq!((number, part), (0, &image_of(state)[..]));
            assert!(std::ptr::eq(part.as_ptr(), &lent[ENTRY * place + NAME]));
            let (number, again) = restore(part, sheet);
            assert_eq!(number, 0);
            recalled += 1;
            let (mut rom, schedule, _) = any_panel(&mut draw);
            rom.truncate(sheet.rom as usize);
            let (n, room) = (draw.below(40), draw.below(600) as usize);
            for runner in [Runner::Plain, Runner::Skipping] {
                let ran = |state: &State| {
                    let mut log = vec![7; room];
                    let answer = run(runner, &rom, &schedule, state, &mut log, n, sheet);
                    (answer.number, answer.state, answer.steps, log)
                };
                assert_eq!(ran(&again), ran(state));
            }
        }
    }
    assert!(recalled > 500 && replaced > 500, "{recalled} {replaced}");
    for number in [51, 52, 53] {
        assert!(refused[number] > 200, "{number}: {}", refused[number]);
    }
}

/// The fresh image is one under every sheet, so that any board can store it.
#[test]
fn the_fresh_image_is_stored_under_every_sheet() {
    let mut bytes = vec![0; IMAGE];
    assert_eq!(fresh(&mut bytes), 0);
    for sheet in legal() {
        let mut lent = vec![0; ENTRY];
        assert_eq!(store(&mut lent, &name("fresh"), &bytes, sheet), 0);
        assert_eq!(recall(&lent, &name("fresh"), sheet), (0, &bytes[..]));
    }
}

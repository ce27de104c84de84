//! What the groups are for is what they reach.

use std::collections::{BTreeSet, HashMap};

use super::group::Variant;
use super::*;
use reference::sheets::{HALF, LEAST, PAGE};

fn restores(trial: &Trial) -> Vec<Vec<u8>> {
    let bytes = |variant| match variant {
        Variant::Restore(bytes) => Some(bytes),
        Variant::Save(..) => None,
    };
    trial.variants().into_iter().filter_map(bytes).collect()
}

#[test]
fn every_group_reaches_its_numbers_and_comes_back() {
    assert_eq!(all_faults(&all()), Vec::<String>::new());
}

#[test]
fn every_trial_is_for_its_numbers() {
    let mut numbers: HashMap<&str, BTreeSet<u8>> = HashMap::new();
    for group in all() {
        numbers
            .entry(group.trial.word())
            .or_default()
            .extend(group.numbers);
    }
    for (word, expected) in [
        ("byte", vec![0, 32, 33, 34]),
        ("pair", vec![0, 32, 33, 34]),
        ("length", vec![0, 31, 32, 33, 34, 71]),
        ("torn", vec![0, 32, 33, 34]),
        ("drawn", vec![0, 31, 32, 33, 34]),
        ("value", vec![0, 1, 34, 54]),
        ("buffer", vec![0, 1, 34, 54, 71]),
    ] {
        let expected: BTreeSet<u8> = expected.into_iter().collect();
        assert_eq!(numbers.remove(word), Some(expected), "{word}");
    }
    assert!(numbers.is_empty());
}

#[test]
fn a_group_that_misses_a_number_is_a_fault() {
    let mut group = bytes(&bases::states())[13].clone();
    let tally = group.tally();
    assert_eq!(faults(&group, &tally), Vec::<String>::new());
    for numbers in [vec![0], vec![34], vec![0, 31, 34], vec![]] {
        group.numbers = numbers;
        assert_eq!(faults(&group, &tally).len(), 1);
    }
    group.numbers = vec![34, 0];
    let mut fewer = tally.clone();
    fewer.same -= 1;
    assert_eq!(faults(&group, &fewer).len(), 1);
}

#[test]
fn another_answer_changes_the_line() {
    let group = &bytes(&bases::states())[13];
    let mut other = group.clone();
    let Trial::Byte { image, .. } = &mut other.trial else {
        panic!("not a group of bytes");
    };
    image[80] ^= 1;
    let calls = [group, &other].map(|group| Calls(group.clone()).put(&mut Stream::default()));
    assert_ne!(calls[0], calls[1]);
    let values = [group, &other].map(|group| Values(group.clone()).put(&mut Stream::default()));
    assert_ne!(values[0], values[1]);
}

#[test]
fn the_states_are_what_they_are_called() {
    let states = bases::states();
    let state = |name: &str| {
        let found = states.iter().find(|(called, _)| *called == name);
        &found.expect("a state of this name").1
    };
    assert_eq!(*state("fresh"), State::fresh());
    let owing = state("owed cycles, running timer");
    assert!(owing.owed > 0 && owing.register > 1 && owing.counter > 0);
    assert!(owing.cycle > 0 && owing.ports != [0; 7] && owing.ram != [0; 96]);
    assert!(owing.stack != [0; 3]);
    assert_eq!(state("mark LDI").mark, 1);
    assert_eq!(state("mark EI").mark, 2);
    assert_eq!(state("mark STM").mark, 3);
    assert_eq!(state("mark LI").mark, 4);
    assert!(state("PC above 7CF").pc > 0x7CF);
    let ended = state("timer ended");
    assert_eq!((ended.tm, ended.register, ended.counter), (1, 0, 0));
    assert!(states[..UNCOUNTED]
        .iter()
        .all(|(name, state)| state.count == 0 || *name == "highest"));
    for (count, name) in (1..).zip([
        "count 1, running timer",
        "count 2, level low",
        "count 3, owed cycles",
        "count 4, in reset",
    ]) {
        assert_eq!(state(name).count, count);
        assert_eq!(states[UNCOUNTED + usize::from(count) - 1].0, name);
    }
    let reset = state("count 4, in reset");
    assert_eq!((reset.pc, reset.owed, reset.ports), (0, 0, [0; 7]));
    assert!(reset.ram != [0; 96] && reset.stack != [0; 3]);
    let highest = bases::image(state("highest"));
    assert!(highest[27..81].iter().all(|&byte| byte == 0xFF));
    for place in (5..27).chain([81]) {
        let mut above = highest.clone();
        above[place] = above[place].wrapping_add(1);
        // The lower bytes of PC and stack come round to 0.
        let number = if matches!(place, 6 | 8 | 10 | 12) {
            0
        } else {
            34
        };
        assert_eq!(
            reference::restore(&above, Sheet::UPD546).0,
            number,
            "byte {place}"
        );
    }
}

#[test]
fn every_byte_of_an_image_is_taken_up_to_its_width() {
    let states = bases::states();
    for (place, group) in bytes(&states)[..IMAGE].iter().enumerate() {
        assert_eq!(group.tally().count(0) as usize, width(place), "{place}");
    }
    // Of version 1 likewise, behind those of version 2.
    let old: Vec<Group> = bytes(&states).split_off((UNCOUNTED + 1) * IMAGE);
    assert_eq!(old.len(), 4 * 81);
    for (place, group) in old[..81].iter().enumerate() {
        assert_eq!(group.tally().count(0) as usize, width(place), "{place}");
    }
}

/// How many values a byte of a state has; a RAM word, by its row.
fn legal(state: &State, place: usize) -> u32 {
    match place {
        124 | 125 => 1,
        0 | 2 | 4 | 6 | 11 | 27 => 8,
        8 | 12 | 21..=26 => 16,
        9 | 10 | 13..=16 => 2,
        17 => 5,
        18 => 4,
        19 if state.counter > 0 => 63,
        20 if state.register == 0 => 1,
        19 | 20 => 64,
        132 => 5,
        _ => 256,
    }
}

#[test]
fn every_field_of_a_value_is_taken_up_to_its_width() {
    let states = value_states(&bases::states());
    let groups = values(&states);
    for group in &groups {
        let tally = group.tally();
        let (_, state) = &states[usize::from(group.base)];
        let place = usize::from(group.at);
        let legal = legal(state, place);
        // Values without a count, which version 1 holds.
        let old = match (place, state.count) {
            (132, _) => 1,
            (_, 0) => legal,
            _ => 0,
        };
        assert_eq!(tally.count(0), legal + old, "{}", group.name);
        // The short buffer is refused by 1 only where the state isn't refused by 34 or 54.
        assert_eq!(tally.count(1), legal + old, "{}", group.name);
        assert_eq!(tally.count(54), 2 * (legal - old), "{}", group.name);
        assert_eq!(tally.count(34), tally.tries - 4 * legal, "{}", group.name);
    }
    assert_eq!(groups.len(), 4 * (37 + 6));
}

#[test]
fn a_state_as_a_value_is_the_state() {
    let states = bases::states();
    let faulty = bases::faulty_states(&states[1].1);
    for (name, state) in states.iter().chain(&faulty) {
        let bytes = state_bytes(state);
        assert_eq!(bytes.len(), VALUE, "{name}");
        assert_eq!(bases::state_of(&bytes), *state, "{name}");
    }
}

#[test]
fn variants_are_what_they_are_called() {
    let states = bases::states();
    let image = bases::image(&states[1].1);
    let rest = bases::image(&states[2].1);
    let torn = restores(&Trial::Torn {
        first: image.clone(),
        rest: rest.clone(),
    });
    assert_eq!((torn.len(), &torn[0], &torn[82]), (83, &rest, &image));
    assert_eq!(torn[40][..40], image[..40]);
    assert_eq!(torn[40][40..], rest[40..]);
    for (seed, zeros) in [(0, true), (7, false)] {
        let lengths = restores(&Trial::Length {
            image: image.clone(),
            seed,
        });
        assert_eq!(lengths.len(), 201);
        for (length, bytes) in lengths.iter().enumerate() {
            assert_eq!(bytes.len(), length);
            assert_eq!(bytes[..length.min(82)], image[..length.min(82)]);
        }
        assert_eq!(lengths[200][82..].iter().all(|&byte| byte == 0), zeros);
    }
    let pairs = restores(&Trial::Pair {
        image: image.clone(),
        place: 18,
    });
    assert_eq!(pairs.len(), 65_536);
    assert_eq!(pairs[0x1234][18..20], [0x12, 0x34]);
    assert_eq!(pairs[0x1234][..18], image[..18]);
    assert_eq!(pairs[0x1234][20..], image[20..]);
}

/// Under a smaller sheet a byte of what is absent is taken with 0 alone, and every other as before.
#[test]
fn what_is_absent_is_taken_with_zeros_alone() {
    for sheet in [LEAST, HALF, PAGE] {
        let mut absent = 0;
        for group in all().iter().filter(|group| group.sheet == sheet) {
            let Trial::Byte { image, place } = &group.trial else {
                continue;
            };
            let old = Group {
                sheet: Sheet::UPD546,
                ..group.clone()
            };
            let taken = [group, &old].map(|group| group.tally().count(0));
            if taken[0] == 1 && taken[1] > 1 {
                assert_eq!(image[*place], 0);
                absent += 1;
            } else {
                assert_eq!(taken[0], taken[1], "{}", group.name);
            }
        }
        let rows = 5 - sheet.rows.count_ones();
        let levels = 3 - sheet.levels as u32;
        assert_eq!(absent, 8 * rows + 2 * levels, "{sheet:?}");
    }
}

#[test]
fn lengths_are_drawn_all_over() {
    let shape = bases::narrow(Version::Two, 0);
    let drawn = restores(&Trial::Drawn {
        shape,
        tries: 8_000,
        shortest: 0,
        lengths: 201,
        seed: 5,
    });
    let lengths: BTreeSet<usize> = drawn.iter().map(Vec::len).collect();
    assert_eq!(lengths.len(), 201);
    let different: BTreeSet<&Vec<u8>> = drawn.iter().filter(|bytes| bytes.len() > 9).collect();
    assert!(different.len() > 7_000);
    for bytes in drawn.iter().filter(|bytes| bytes.len() > 19) {
        assert_eq!(bytes[..5], *b"U43\0\x02");
        assert!(bytes[5] < 8 && bytes[13] < 128 && bytes[19] < 64);
    }
}

#[test]
fn only_the_bytes_that_differ_are_sent() {
    let sent = Sent(Some(vec![1, 2, 3, 4, 5]));
    assert_eq!(sent.changes(&[1, 2, 3, 4, 5]), Some(vec![]));
    assert_eq!(sent.changes(&[9, 2, 3, 4, 0]), Some(vec![(0, 9), (4, 0)]));
    assert_eq!(sent.changes(&[9, 9, 9, 9, 5]), None);
    assert_eq!(sent.changes(&[1, 2, 3, 4]), None);
    assert_eq!(Sent(None).changes(&[1]), None);
}

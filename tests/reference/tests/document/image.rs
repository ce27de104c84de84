//! "State image, 81 bytes", and version 2 of 82.

use reference::{State, Version};

use crate::common::*;
use crate::refusals::faulty_states;

fn image(state: &State) -> Vec<u8> {
    image_in(Version::Two, state)
}

fn image_in(version: Version, state: &State) -> Vec<u8> {
    let mut image = vec![0; version.length()];
    assert_eq!(save(version, state, &mut image), 0);
    image
}

/// The same state with a count of 0, which either version holds.
fn uncounted(mut state: State) -> State {
    state.count = 0;
    state
}

#[test]
fn the_fresh_image() {
    let mut expected = vec![0; 82];
    expected[..5].copy_from_slice(b"U43\x00\x02");
    expected[15] = 32;
    assert_eq!(image(&State::fresh()), expected);
    expected.pop();
    expected[4] = 1;
    assert_eq!(image_in(Version::One, &State::fresh()), expected);
}

#[test]
fn each_field_has_its_place() {
    let mut state = State::fresh();
    state.pc = 0x123;
    state.stack = [0x456, 0x789, 0x0AB];
    state.dph = 5;
    state.dpl = 12;
    state.acc = 9;
    state.saved = 1;
    state.inte = 1;
    state.mark = LDI;
    state.owed = 3;
    state.register = 33;
    state.counter = 62;
    state.ports = [1, 2, 3, 4, 5, 6, 7];
    for (word, place) in state.ram.iter_mut().zip(0..) {
        *word = (place % 16) ^ (place / 16);
    }
    state.cycle = 0x0102_0304_0506;
    let one = image_in(Version::One, &state);
    state.count = 3;
    let image = image(&state);
    assert_eq!(one[5..], image[5..81]);
    assert_eq!(image[81], 3);
    assert_eq!(image[5..13], [1, 0x23, 4, 0x56, 7, 0x89, 0, 0xAB]);
    assert_eq!(image[13..20], [0x5C, 9, 0b10_1010, 1, 3, 33, 62]);
    assert_eq!(image[20..27], [1, 2, 3, 4, 5, 6, 7]);
    // Rows 0, 1 and 7.
    assert_eq!(image[27..31], [0x01, 0x23, 0x45, 0x67]);
    assert_eq!(image[35..39], [0x10, 0x32, 0x54, 0x76]);
    assert_eq!(image[67..71], [0x54, 0x76, 0x10, 0x32]);
    assert_eq!(image[75..81], [1, 2, 3, 4, 5, 6]);
}

#[test]
fn each_flag_has_its_bit() {
    let bits: [fn(&State) -> u8; 6] = [
        |s| s.carry,
        |s| s.saved,
        |s| s.int,
        |s| s.inte,
        |s| s.tm,
        |s| s.level,
    ];
    let mut bytes = image(&State::fresh());
    for flags in 0..=255 {
        bytes[15] = flags;
        let (number, state) = restore(&bytes);
        assert_eq!(number, if flags < 64 { 0 } else { 34 });
        if number == 0 {
            for (place, flag) in bits.iter().enumerate() {
                assert_eq!(flag(&state), flags >> place & 1);
            }
        }
    }
}

#[test]
fn a_state_saved_and_restored_is_the_same_state() {
    let draw = &mut Draw::new(11);
    for _ in 0..20_000 {
        let state = any_state(draw);
        assert_eq!(restore(&image(&state)), (0, state.clone()));
        let state = uncounted(state);
        assert_eq!(restore(&image_in(Version::One, &state)), (0, state));
    }
}

#[test]
fn an_accepted_image_restored_and_saved_is_the_same_bytes() {
    let draw = &mut Draw::new(12);
    for version in Version::BOTH {
        let mut accepted = 0;
        for _ in 0..50_000 {
            let mut bytes = match version {
                Version::One => image_in(version, &uncounted(any_state(draw))),
                Version::Two => image(&any_state(draw)),
            };
            for _ in 0..draw.below(4) {
                let place = draw.below(version.length() as u64) as usize;
                bytes[place] ^= 1 << draw.below(8);
            }
            let (number, state) = restore(&bytes);
            if number == 0 {
                accepted += 1;
                assert_eq!(image_in(version, &state), bytes);
            } else {
                assert_eq!(state, State::fresh());
            }
        }
        assert!(accepted > 10_000);
    }
}

#[test]
fn a_version_1_image_taken_forward_and_back_is_the_same_bytes() {
    let draw = &mut Draw::new(13);
    for _ in 0..5_000 {
        let one = image_in(Version::One, &uncounted(any_state(draw)));
        let two = image(&restore(&one).1);
        assert_eq!((two.len(), two[4], two[81]), (82, 2, 0));
        assert_eq!(image_in(Version::One, &restore(&two).1), one);
    }
}

#[test]
fn save_writes_81_or_82_bytes_only() {
    for version in Version::BOTH {
        let mut buffer = [0xA5; 100];
        let written = version.length();
        assert_eq!(save(version, &State::fresh(), &mut buffer), 0);
        assert_eq!(buffer[..written], image_in(version, &State::fresh()));
        assert!(buffer[written..].iter().all(|&byte| byte == 0xA5));
    }
}

#[test]
fn a_refused_save_writes_nothing() {
    let refuses = |version: Version, state: &State, room: usize, number: u8| {
        let mut buffer = vec![0xA5; room];
        assert_eq!(save(version, state, &mut buffer), number);
        assert_eq!(buffer, vec![0xA5; room]);
    };
    for version in Version::BOTH {
        refuses(version, &State::fresh(), version.length() - 1, 1);
        refuses(version, &State::fresh(), 0, 1);
        for state in faulty_states() {
            refuses(version, &state, 82, 34);
            // 34 before 1.
            refuses(version, &state, 80, 34);
        }
    }
    // 54 between 34 and 1, and of version 1 alone.
    for count in 1..=4 {
        let mut state = State::fresh();
        state.count = count;
        for room in [0, 80, 81, 82, 100] {
            refuses(Version::One, &state, room, 54);
        }
        refuses(Version::Two, &state, 81, 1);
        assert_eq!(image(&state)[81], count);
        state.acc = 16;
        refuses(Version::One, &state, 81, 34);
    }
}

#[test]
fn restore_refuses_in_its_order() {
    let fresh = State::fresh();
    assert_eq!(restore(&[0xFF; 80]), (31, fresh.clone()));
    assert_eq!(restore(&[]), (31, fresh.clone()));
    assert_eq!(restore(&[0xFF; 83]), (31, fresh.clone()));
    // 81 bytes go with version 1, 82 with version 2.
    for (length, number, other) in [(81, 1, 2), (82, 2, 1)] {
        let mut bytes = vec![0xFF; length];
        assert_eq!(restore(&bytes), (32, fresh.clone()));
        for (place, &letter) in b"U43".iter().enumerate() {
            assert_eq!(restore(&bytes), (32, fresh.clone()));
            bytes[place] = letter;
        }
        for version in [
            [0xFF, 0xFF],
            [1, 0],
            [0, 0],
            [0, other],
            [1, number],
            [0, 3],
        ] {
            bytes[3..5].copy_from_slice(&version);
            assert_eq!(restore(&bytes), (33, fresh.clone()));
        }
        bytes[3..5].copy_from_slice(&[0, number]);
        assert_eq!(restore(&bytes), (34, fresh.clone()));
    }
}

#[test]
fn restore_takes_each_field_up_to_its_width() {
    // Place and highest value of each byte field; two-byte fields by their high byte.
    let mut widths = vec![(13, 127), (14, 15), (15, 63), (16, 4), (17, 3), (18, 63)];
    widths.extend([(5, 7), (7, 7), (9, 7), (11, 7), (26, 7)]);
    widths.extend((20..26).map(|place| (place, 15)));
    widths.extend([6, 8, 10, 12].map(|place| (place, 255)));
    widths.extend((27..81).map(|place| (place, 255)));
    widths.push((81, 4));
    for (place, highest) in widths {
        for version in Version::BOTH {
            for value in 0..=255_u8 {
                let mut bytes = image_in(version, &State::fresh());
                let Some(byte) = bytes.get_mut(place) else {
                    continue;
                };
                *byte = value;
                let number = restore(&bytes).0;
                assert_eq!(number, if value <= highest { 0 } else { 34 });
            }
        }
    }
    // The counter is 0 when the timer is stopped.
    for register in 0..=255 {
        for counter in 0..=255 {
            let mut bytes = image(&State::fresh());
            bytes[18] = register;
            bytes[19] = counter;
            let sound = register <= 63 && counter <= 63 && (register > 0 || counter == 0);
            assert_eq!(restore(&bytes).0, if sound { 0 } else { 34 });
        }
    }
}

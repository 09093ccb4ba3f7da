//! Saved states.

use model::codes::Mode;
use model::reader::ReaderState;
use model::saved;
use model::sender::SenderState;
use model::slots::Due;

#[test]
fn fresh_states() {
    assert_eq!(saved::save_sender(&SenderState::FRESH), [31, 31, 0, 1, 0, 0]);
    assert_eq!(saved::save_reader(&ReaderState::FRESH), Some([31, 0, 31, 0, 0, 0, 63, 0, 0, 0, 0, 0]));
}

/// Each octet has a field of its own.
#[test]
fn every_field_has_its_octet() {
    let sender = saved::load_sender(&[1, 2, 3, 4, 5, 6]);
    let six = SenderState { chosen: 1, in_force: 2, data: 3, block: 4, item_due: true, remainder: 6 };
    assert_eq!(sender, Some(six));
    let octets = [1, 2, 3, 4, 5, 6, 0b01_0011, 8, 9, 10, 11, 12];
    let reader = ReaderState {
        mode: Mode { audio: 1, data: 2 },
        kept: Mode { audio: 3, data: 4 },
        wrong_words: 5,
        block: Some(6),
        first_bits: [false, true, false, false, true, true],
        wrong_patterns: 8,
        due: Due::Message(10),
        before: true,
        remainder: 12,
    };
    assert_eq!(saved::load_reader(&octets), Some(reader));
    let walk = [&octets[..], &[13], &0x0102_0304_0506_0708_u64.to_le_bytes()].concat();
    assert_eq!(walk[13..15], [8, 7], "the lowest octet is first");
    assert_eq!(saved::load_walk(&walk), Some((reader, true, 0x0102_0304_0506_0708)));
}

#[test]
fn a_length_is_a_form_of_one_state_at_most() {
    let octets = [0; 40];
    let lengths =
        |is_form: fn(&[u8]) -> bool| (0..=40).filter(|&length| is_form(&octets[..length])).collect::<Vec<_>>();
    assert_eq!(lengths(|saved| saved::load_sender(saved).is_some()), [6]);
    assert_eq!(lengths(|saved| saved::load_reader(saved).is_some()), [12]);
    assert_eq!(lengths(|saved| saved::load_walk(saved).is_some()), [21]);
}

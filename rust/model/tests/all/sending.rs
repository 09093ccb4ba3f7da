//! Each rule of "Sending a block".

use crate::common::Sender;
use model::forge::{filler, sending, silent};
use model::sender::Answer::{Held, Sent};
use model::sender::SenderState;
use model::service::Flags;

fn with_item_due(state: SenderState) -> SenderState {
    SenderState { item_due: true, ..state }
}

#[test]
fn fresh() {
    let fresh = SenderState { chosen: 31, in_force: 31, data: 0, block: 1, item_due: false, remainder: 0 };
    assert_eq!(SenderState::FRESH, fresh);
    assert!(fresh.in_range());
}

#[test]
fn an_item_goes_before_mutes_off() {
    let mut sender = Sender::muted(with_item_due(sending(24, 1)));
    assert_eq!(sender.offer(0x80), Ok(Sent));
    assert_eq!(sender.code_sent(), 0x80);
    assert_eq!((sender.state.in_force, sender.state.item_due), (24, false));
    assert!(sender.all_bits(7, true), "muted at once");
    assert_eq!(sender.offer(0x81), Ok(Held));
    assert_eq!((sender.code_sent(), sender.state.in_force, sender.state.chosen), (0x1F, 31, 24));
}

#[test]
fn an_item_goes_before_the_release() {
    let mut sender = Sender::new(with_item_due(silent(24, 1)));
    assert_eq!(sender.offer(0x80), Ok(Sent));
    assert_eq!((sender.code_sent(), sender.state.in_force), (0x80, 31));
    assert!(sender.all_bits(7, true), "silent");
    assert_eq!(sender.offer(0x81), Ok(Held));
    assert_eq!((sender.code_sent(), sender.state.in_force), (0x18, 24));
}

#[test]
fn items_touch_no_mode_and_any_of_000_to_110_goes() {
    for state in [sending(20, 5), silent(20, 5), sending(31, 0)] {
        for code in 0..=0xDF {
            for mute in [false, true] {
                let mut sender = Sender::new(with_item_due(state));
                sender.mute = mute;
                assert_eq!(sender.offer(code), Ok(Sent));
                assert_eq!(sender.code_sent(), code);
                let modes = |state: SenderState| (state.chosen, state.in_force, state.data, state.item_due);
                assert_eq!(modes(sender.state), modes(state));
            }
        }
        for code in 0xE0..=0xFF {
            assert_eq!(Sender::new(with_item_due(state)).refusal(code), 6);
        }
    }
}

#[test]
fn mutes_off_and_the_release() {
    let mut sender = Sender::muted(sending(24, 1));
    assert_eq!(sender.offer(0x80), Ok(Held));
    assert_eq!(sender.code_sent(), 0x1F);
    assert_eq!((sender.state.chosen, sender.state.in_force, sender.state.data), (24, 31, 1));
    assert!(sender.all_bits(7, true), "this very block carries ones");
    assert_eq!(sender.offer(0x80), Ok(Sent), "muted on: the offered code goes");
    sender.mute = false;
    assert_eq!(sender.offer(0x82), Ok(Held));
    assert_eq!((sender.code_sent(), sender.state.in_force), (0x18, 24));
    assert!(sender.all_bits(7, true), "the block of the release is silent");
    assert_eq!(sender.offer(0x82), Ok(Sent));
    assert!(sender.all_bits(7, false), "voice, all zeros here");
}

#[test]
fn a_held_code_is_not_judged() {
    for code in 0..=255 {
        let mut mute = Sender::muted(sending(24, 1));
        assert_eq!((mute.offer(code), mute.code_sent()), (Ok(Held), 0x1F));
        let after_mute = SenderState { block: 4, remainder: mute.state.remainder, ..silent(24, 1) };
        assert_eq!(mute.state, after_mute, "nothing of code {code:02X} is taken");
        let mut release = Sender::new(silent(24, 1));
        assert_eq!((release.offer(code), release.code_sent()), (Ok(Held), 0x18));
        let after_release = SenderState { block: 4, remainder: release.state.remainder, ..sending(24, 1) };
        assert_eq!(release.state, after_release);
    }
}

#[test]
fn a_held_code_still_meets_rows_1_to_4() {
    let mut sender = Sender::muted(sending(24, 1));
    sender.data.push(0);
    assert_eq!(sender.refusal(0xFF), 4);
    sender.voice.clear();
    assert_eq!(sender.refusal(0xFF), 3);
    sender.line.push(0);
    assert_eq!(sender.refusal(0xFF), 2);
    sender.state.block = 0;
    assert_eq!(sender.refusal(0xFF), 1);
}

#[test]
fn an_audio_command_sets_chosen_and_in_force() {
    for audio in [11, 29, 28, 27, 20, 21, 25, 18, 19, 24, 31] {
        let mut sender = Sender::new(sending(20, 0));
        assert_eq!(sender.offer(audio), Ok(Sent));
        assert_eq!((sender.state.chosen, sender.state.in_force, sender.state.data), (audio, audio, 0));
    }
}

#[test]
fn a_data_command_sets_data() {
    for data in 0..=14 {
        let mut sender = Sender::new(sending(31, 9));
        assert_eq!(sender.offer(0x60 | data), Ok(Sent));
        assert_eq!((sender.state.chosen, sender.state.in_force, sender.state.data), (31, 31, data));
    }
}

#[test]
fn neutral_turns_audio_and_data_off() {
    for state in [sending(20, 5), sending(31, 14), sending(31, 0)] {
        let mut sender = Sender::new(state);
        assert_eq!(sender.offer(0x00), Ok(Sent));
        assert_eq!((sender.state.chosen, sender.state.in_force, sender.state.data), (31, 31, 0));
        assert!(sender.state.in_range());
    }
    assert_eq!(Sender::muted(sending(31, 5)).refusal(0x00), 7);
}

#[test]
fn the_modes_offered_again_change_nothing() {
    for code in [20, 0x65] {
        let mut sender = Sender::new(sending(20, 5));
        assert_eq!(sender.offer(code), Ok(Sent));
        assert_eq!((sender.state.chosen, sender.state.in_force, sender.state.data), (20, 20, 5));
    }
}

#[test]
fn audio_commands_while_muted_are_refused() {
    let listed = [0, 11, 18, 19, 20, 21, 24, 25, 27, 28, 29, 31];
    for state in [sending(31, 0), silent(24, 0), sending(31, 14)] {
        for value in 0..=31 {
            let number = if listed.contains(&value) { 7 } else { 5 };
            assert_eq!(Sender::muted(state).refusal(value), number, "(000)[{value}]");
        }
    }
}

#[test]
fn data_is_judged_against_chosen_while_muted() {
    assert_eq!(Sender::muted(silent(24, 0)).refusal(0x65), 8);
    assert_eq!(Sender::muted(silent(20, 0)).refusal(0x68), 8);
    let mut sender = Sender::muted(silent(20, 0));
    assert_eq!(sender.offer(0x65), Ok(Sent));
    sender.mute = false;
    assert_eq!(sender.offer(0x80), Ok(Held), "the muted audio can come back");
    assert_eq!((sender.state.in_force, sender.state.data), (20, 5));
}

#[test]
fn only_escapes_leave_an_item_due() {
    for code in (0..=255).filter(|&code| model::codes::carried(code)) {
        let mut sender = Sender::new(sending(31, 0));
        assert_eq!(sender.offer(code), Ok(Sent));
        assert_eq!(sender.state.item_due, (0xEF..=0xF4).contains(&code), "code {code:02X}");
    }
}

#[test]
fn codes_without_effect_leave_the_mode() {
    for code in [0x20].into_iter().chain(0x80..=0xDF).chain([0xEF, 0xF4, 0xF8]) {
        let mut sender = Sender::new(sending(20, 5));
        assert_eq!((sender.offer(code), sender.code_sent()), (Ok(Sent), code));
        assert_eq!((sender.state.chosen, sender.state.in_force, sender.state.data), (20, 20, 5));
    }
}

#[test]
fn a_command_takes_hold_in_the_next_block() {
    let mut sender = Sender::new(sending(31, 0));
    sender.offer(0x18).expect("opens audio");
    assert!(sender.all_bits(7, true), "no voice yet");
    sender.offer(0x1F).expect("closes audio");
    assert!(sender.all_bits(7, false), "still voice, all zeros here");
    sender.offer(0x6D).expect("opens data");
    assert!(sender.all_bits(7, true), "no data yet");
    sender.offer(0x60).expect("closes data");
    assert!(sender.all_bits(7, false), "still data, all zeros here");
}

#[test]
fn mute_silences_voice_and_not_data() {
    let mut sender = Sender::muted(sending(20, 5));
    sender.offer(0x80).expect("a block");
    assert!(sender.all_bits(6, true));
    assert!(sender.line.iter().all(|octet| octet & 2 == 0), "bit 7 carries data, all zeros here");
}

#[test]
fn blocks_are_counted_and_remainders_handed_on() {
    let mut sender = Sender::new(SenderState::FRESH);
    let mut remainder = 0;
    for block in (1..=8).chain(1..=8) {
        assert_eq!(sender.state.block, block);
        sender.offer(0x1F).expect("a block");
        let c_bits = (84..88).fold(0, |sum, octet| sum << 1 | sender.line[octet] & 1);
        assert_eq!(c_bits, remainder);
        remainder = sender.state.remainder;
    }
}

#[test]
fn flags_in_their_places() {
    for block in 1..=8 {
        let mut sender = Sender::new(SenderState { block, ..SenderState::FRESH });
        for (a, e, t) in [(true, false, false), (false, true, true)] {
            sender.state.block = block;
            sender.flags = Flags { a, e, t };
            sender.offer(0x1F).expect("a block");
            assert_eq!([82, 83].map(|octet: usize| sender.line[octet] & 1 == 1), [a, e]);
            let first_bit = sender.line[0] & 1 == 1;
            assert_eq!(first_bit, block == 6 || block == 8 && t, "frames 10 and 14");
        }
    }
}

#[test]
fn the_line_block_at_entry_and_the_rest_of_the_buffers_have_no_influence() {
    let mut lines = Vec::new();
    for kind in 0..4 {
        let mut sender = Sender::new(sending(11, 1));
        sender.line = filler(160, kind);
        sender.voice = [vec![0x3C; 20], filler(120, kind)].concat();
        sender.data = [vec![0b1011_0100 | kind as u8], filler(155, kind)].concat();
        sender.offer(0x80).expect("a block");
        lines.push(sender.line);
    }
    lines.dedup();
    assert_eq!(lines.len(), 1, "20 octets of voice and six bits of data count");
}

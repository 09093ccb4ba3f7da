//! Presets.

use crate::common::Sender;
use model::forge::{sending, silent};
use model::preset;
use model::sender::Answer::{Held, Sent};
use model::sender::SenderState;

/// Audio [20] (10100), data [5] (00101), six zeros.
const A20_D5: u16 = 0b1010_0001_0100_0000;
/// Audio [31], data [0].
const OFF: u16 = 0b1111_1000_0000_0000;

#[test]
fn reading_gives_a_fresh_state_with_that_choice() {
    let (state, offer) = preset::read(A20_D5).expect("audio [20] and data [5]");
    assert_eq!(state, SenderState { chosen: 20, ..SenderState::FRESH });
    assert_eq!(offer, 0x65);
    let (off, offer) = preset::read(OFF).expect("both off");
    assert_eq!((off, offer), (SenderState::FRESH, 0x60));
    assert_eq!(preset::read_octets(&[0b1010_0001, 0b0100_0000]), Ok((state, 0x65)));
}

#[test]
fn writing_takes_chosen_audio_and_data_in_force() {
    assert_eq!(preset::write(&sending(20, 5)), Ok(A20_D5));
    assert_eq!(preset::write(&silent(20, 5)), Ok(A20_D5));
    assert_eq!(preset::write(&SenderState::FRESH), Ok(OFF));
}

#[test]
fn what_is_read_can_be_written_once_its_data_is_sent() {
    let mut count = 0;
    for bits in 0..=u16::MAX {
        let Ok((state, offer)) = preset::read(bits) else { continue };
        count += 1;
        let mut sender = Sender::new(state);
        if state.chosen != 31 {
            assert_eq!(sender.offer(offer), Ok(Held), "audio comes first");
        }
        assert_eq!(sender.offer(offer), Ok(Sent));
        assert_eq!(preset::write(&sender.state), Ok(bits));
        assert_eq!((sender.state.in_force, sender.state.chosen), (state.chosen, state.chosen));
    }
    assert_eq!(count, 100);
}

//! Presets there and back.

use delampuk::{Call, Preset, Refusal, Sender, Sent};

use crate::common::{send, sender_after, CUES, IDLE, SPEECH};

/// Audio \[25\] and data \[5\].
const BITS: u16 = 25 << 11 | 5 << 6;

#[test]
fn a_preset_starts_a_session() {
    let Preset { mut sender, offer } = Preset::read(BITS).expect("both values are listed and do not overlap");
    assert_eq!(offer, CUES);
    let fate = |answer: Result<(Sent, _), Refusal>| answer.map(|(sent, _)| sent);
    assert_eq!(fate(send(&mut sender, Call::offer(offer))), Ok(Sent::Held), "the chosen audio goes first");
    assert_eq!(fate(send(&mut sender, Call::offer(offer))), Ok(Sent::Sent));
    assert_eq!(sender.preset(), Ok(BITS));
}

#[test]
fn a_session_leaves_a_preset() {
    let mut sender = sender_after(&[SPEECH, CUES, IDLE]);
    assert_eq!(sender.preset(), Ok(BITS));
    // muted audio is still the chosen one
    send(&mut sender, Call::offer(IDLE).muted()).expect("the code is held");
    assert_eq!(sender.preset(), Ok(BITS));
    assert_eq!(Sender::new().preset(), Ok(31 << 11));
}

#[test]
fn what_is_no_preset_is_refused() {
    assert_eq!(Preset::read(BITS | 1), Err(Refusal::NotAPreset));
    assert_eq!(Preset::read(5 << 6), Err(Refusal::NotAPreset), "audio [0]");
    assert_eq!(Preset::read(24 << 11 | 5 << 6), Err(Refusal::NotAPreset), "they overlap");
    assert_eq!(Sender::load(&[0; 6]).expect("any octets load").preset(), Err(Refusal::BadState));
}

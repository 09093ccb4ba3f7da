//! Sending calls.

use bench::check;
use bench::contestants::{self, Contestant};
use bench::forms::Offer;
use differential::calls::Send;
use differential::draw;
use model::random::Random;

use crate::states;

/// Holds every contestant to the model on one call.
fn compare(call: &Send) {
    let state = states::sender(call.state);
    let offer = Offer {
        mute: call.mute != 0,
        code: call.code,
        flags: call.flags.map(|switch| switch != 0),
        voice: &call.voice.0,
        lsd: &call.lsd.0,
    };
    let left = |contestant: &dyn Contestant| check::send(contestant, state, &offer, call.line.0.len());
    let wanted = left(&contestants::yardstick());
    for contestant in contestants::all() {
        let contestant = contestant.as_ref();
        check::same(contestant, &format!("{call:?}"), &left(contestant), &wanted)
            .unwrap_or_else(|difference| panic!("{difference}"));
    }
}

#[test]
fn contestants_send_any_call_alike() {
    let mut random = Random::new(1);
    for _ in 0..4_000 {
        compare(&draw::send(&mut random));
    }
}

#[test]
fn contestants_send_every_mode_alike() {
    let mut random = Random::new(2);
    for mode in states::modes() {
        for mute in [0, 1] {
            let (block, remainder) = (1 + random.below(8) as u8, random.below(16) as u8);
            let state = [mode.audio, mode.audio, mode.lsd, block, 0, remainder];
            compare(&Send { mute, code: 0x80, ..draw::send_on(&mut random, state) });
        }
    }
}

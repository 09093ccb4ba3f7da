//! `delampuk_send`.

use differential::calls::{Fresh, Send};
use differential::draw;
use differential::states;

use super::{run, Trial};

#[test]
fn fresh_states() {
    run("fresh_states", u64::MAX, |trial| {
        trial.call(&Fresh);
    });
}

#[test]
fn sender_steps() {
    let reached = run("sender_steps", 1, |trial| {
        let call = draw::send(&mut trial.random);
        trial.call(&call);
    });
    reached.all("kind", 0..=2);
    reached.all("number", 0..=8);
}

#[test]
fn sender_takes_every_code() {
    run("sender_takes_every_code", 300, |trial| {
        let state = draw::sender_in_range(&mut trial.random);
        for mute in [0, 1] {
            for code in 0..=255 {
                let call = Send { mute, code, ..draw::send_on(&mut trial.random, state) };
                trial.call(&call);
            }
        }
    });
}

#[test]
fn sender_takes_every_octet_in_each_field() {
    run("sender_takes_every_octet_in_each_field", 7500, |trial| {
        let state = draw::sender_in_range(&mut trial.random);
        for field in 0..state.len() {
            for octet in 0..=255 {
                let mut forged = state;
                forged[field] = octet;
                let call = draw::send_on(&mut trial.random, forged);
                trial.call(&call);
            }
        }
    });
}

/// Each call goes on from the octets that the library left.
#[test]
fn sending_sessions() {
    run("sending_sessions", 20, |trial| {
        let from_preset = trial.random.percent(50);
        let mut state = if from_preset { draw::sender_in_range(&mut trial.random) } else { states::fresh_sender() };
        for _ in 0..40 {
            state = send_some(trial, state);
        }
    });
}

/// A mute lasts some blocks; every block of it is a call of its own.
fn send_some(trial: &mut Trial, mut state: [u8; 6]) -> [u8; 6] {
    let mute = draw::switch(&mut trial.random);
    for _ in 0..1 + trial.random.below(3) {
        let call = Send { mute, ..draw::send_on(&mut trial.random, state) };
        state = trial.call(&call).state;
    }
    state
}

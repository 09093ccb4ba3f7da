//! Reading calls.

use bench::check;
use bench::contestants::{self, Contestant};
use differential::calls::Read;
use differential::draw;
use model::random::Random;

use crate::states;

/// Holds every contestant to the model on one call.
fn compare(call: &Read) {
    let state = states::reader(call.state);
    let left = |contestant: &dyn Contestant| {
        check::read(contestant, state, &call.line.0, [call.voice.0.len(), call.lsd.0.len()])
    };
    let wanted = left(&contestants::yardstick());
    for contestant in contestants::all() {
        let contestant = contestant.as_ref();
        check::same(contestant, &format!("{call:?}"), &left(contestant), &wanted)
            .unwrap_or_else(|difference| panic!("{difference}"));
    }
}

#[test]
fn contestants_read_any_block_alike() {
    let mut random = Random::new(3);
    for _ in 0..6_000 {
        compare(&draw::read(&mut random));
    }
}

#[test]
fn contestants_read_every_mode_alike() {
    let mut random = Random::new(4);
    for mode in states::modes() {
        let mut state = draw::reader_in_range(&mut random);
        (state[0], state[1]) = (mode.audio, mode.lsd);
        // a place that is known, so that the streams are handed out
        state[5] = 1 + random.below(8) as u8;
        let line = draw::line(&mut random, state);
        compare(&draw::read_on(&mut random, state, line));
    }
}

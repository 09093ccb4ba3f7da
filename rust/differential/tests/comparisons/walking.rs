//! `delampuk_step`.

use differential::calls::{Octets, WalkStep};
use differential::draw;
use differential::states;
use model::frame::{BLOCK_OCTETS, DATA_OCTETS, VOICE_OCTETS};
use model::recording;

use super::{run, Trial};

const END: u8 = 2;

#[test]
fn walk_steps() {
    let reached = run("walk_steps", 2, |trial| {
        let random = &mut trial.random;
        let recording = draw::recording(random);
        let call = WalkStep {
            state: draw::reader(random),
            lost: draw::switch(random),
            place: draw::place(random, recording.len()),
            recording: Octets(recording),
            voice: draw::buffer(random, VOICE_OCTETS),
            lsd: draw::buffer(random, DATA_OCTETS),
        };
        trial.call(&call);
    });
    reached.all("kind", 0..=3);
    reached.all("number", [0, 1, 3, 4, 9]);
}

#[test]
fn whole_walks() {
    let reached = run("whole_walks", 20, |trial| {
        let recording = draw::recording(&mut trial.random);
        walk(trial, recording);
    });
    reached.all("kind", 0..=2);
}

/// From the first place that a search finds to the end, each step going on from what the library left. A step
/// moves the walk on or makes it read, so that the end comes.
fn walk(trial: &mut Trial, recording: Vec<u8>) {
    let place = recording::search(&recording, 0).unwrap_or(0);
    let mut step = WalkStep {
        state: states::fresh_reader(),
        lost: 0,
        place,
        recording: Octets(recording),
        voice: Octets(vec![0xA5; VOICE_OCTETS]),
        lsd: Octets(vec![0x5A; DATA_OCTETS]),
    };
    loop {
        let left = trial.call(&step);
        if left.kind >= END {
            // The end moves nothing: the same step answers the same again (W6).
            trial.call(&step);
            return;
        }
        step = WalkStep {
            state: left.state,
            lost: left.lost,
            place: left.place,
            voice: left.voice,
            lsd: left.lsd,
            ..step
        };
    }
}

/// Steps near the end of the longest recordings, and in too long ones.
#[test]
fn steps_in_long_recordings() {
    run("steps_in_long_recordings", 1000, |trial| {
        let length = trial.random.pick(&[65_536, 65_536, 65_537, 100_000]);
        let mut recording = trial.random.octets(length);
        let blocks = draw::session(&mut trial.random, 9);
        let place = length - blocks.len() - trial.random.below(BLOCK_OCTETS);
        recording[place..place + blocks.len()].copy_from_slice(&blocks);
        let back = trial.random.pick(&[0, 1, BLOCK_OCTETS, 30_000]);
        let call = WalkStep {
            state: draw::reader_in_range(&mut trial.random),
            lost: draw::switch(&mut trial.random),
            place: (place - back),
            recording: Octets(recording),
            voice: Octets(trial.random.octets(VOICE_OCTETS)),
            lsd: Octets(trial.random.octets(DATA_OCTETS)),
        };
        trial.call(&call);
    });
}

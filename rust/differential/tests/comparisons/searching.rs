//! `delampuk_search`.

use differential::calls::{Octets, Search};
use differential::draw;

use super::run;

#[test]
fn searches() {
    let reached = run("searches", 2, |trial| {
        let recording = draw::recording(&mut trial.random);
        let start = draw::place(&mut trial.random, recording.len());
        trial.call(&Search { recording: Octets(recording), start });
    });
    reached.all("number", [0, 9, 10]);
}

/// One session with each length that its end can be cut to, from each start near the end.
#[test]
fn searches_near_the_end() {
    run("searches_near_the_end", 15_000, |trial| {
        let session = draw::session(&mut trial.random, 3);
        for length in 160..=336 {
            for start in [0, 1, length - 168.min(length), length - 167.min(length), length, length + 1] {
                let recording = Octets(session[..length].to_vec());
                trial.call(&Search { recording, start });
            }
        }
    });
}

/// The longest recordings, and too long ones.
#[test]
fn long_searches() {
    run("long_searches", 1000, |trial| {
        let length = trial.random.pick(&[65_535, 65_536, 65_536, 65_537, 70_000, 131_072]);
        let mut recording = trial.random.octets(length);
        if trial.random.percent(60) {
            // alignment stands near the end alone
            let blocks = draw::session(&mut trial.random, 2);
            let place = length - 320 - trial.random.below(200);
            recording[..place].fill(0xFF);
            recording[place..place + 320].copy_from_slice(&blocks);
        }
        let start = draw::place(&mut trial.random, length);
        trial.call(&Search { recording: Octets(recording), start });
    });
}

//! `delampuk_about`, `delampuk_tell_sender`, `delampuk_tell_reader`, `delampuk_count` and `delampuk_explain`.

use differential::calls::{About, Count, Explain, TellReader, TellSender};
use differential::draw;

use super::run;

#[test]
fn version_and_sizes() {
    run("version_and_sizes", u64::MAX, |trial| {
        trial.call(&About);
    });
}

#[test]
fn senders_are_told() {
    let reached = run("senders_are_told", 1, |trial| {
        let state = draw::sender(&mut trial.random);
        trial.call(&TellSender { state });
    });
    reached.all("due", 0..=1);
}

#[test]
fn readers_are_told() {
    let reached = run("readers_are_told", 1, |trial| {
        let state = draw::reader(&mut trial.random);
        trial.call(&TellReader { state });
    });
    reached.all("due", 0..=3);
}

#[test]
fn every_mode_is_counted() {
    run("every_mode_is_counted", u64::MAX, |trial| {
        for [audio, lsd] in (0..=u16::MAX).map(u16::to_be_bytes) {
            trial.call(&Count { mode: [audio, lsd] });
        }
    });
}

#[test]
fn every_code_is_explained() {
    run("every_code_is_explained", u64::MAX, |trial| {
        for code in 0..=255 {
            trial.call(&Explain { code });
        }
    });
}

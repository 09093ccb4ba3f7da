//! `delampuk_read`.

use differential::draw;
use differential::states;
use model::codes::Mode;
use model::forge::{self, Line};
use model::frame::BLOCK_OCTETS;

use super::{run, Trial};

#[test]
fn reader_steps() {
    let reached = run("reader_steps", 1, |trial| {
        let call = draw::read(&mut trial.random);
        trial.call(&call);
    });
    reached.all("standing", 0..=2);
    reached.all("verdict", 0..=2);
    reached.all("reading", 0..=6);
    reached.all("number", 0..=4);
}

#[test]
fn reader_takes_every_octet_in_each_field() {
    run("reader_takes_every_octet_in_each_field", 15_000, |trial| {
        let state = draw::reader_in_range(&mut trial.random);
        for field in 0..state.len() {
            for octet in 0..=255 {
                let mut forged = state;
                forged[field] = octet;
                let line = draw::line(&mut trial.random, forged);
                let call = draw::read_on(&mut trial.random, forged, line);
                trial.call(&call);
            }
        }
    });
}

/// Each word that a line can carry, read by a reader in step.
#[test]
fn every_word_is_read() {
    let reached = run("every_word_is_read", u64::MAX, |trial| {
        let state = states::reader_octets(&forge::reading(1, Mode::OFF)).expect("a session meets this state");
        for word in 0..=u16::MAX {
            let line = Line::new(1, 0).word(word.to_be_bytes());
            let call = draw::read_on(&mut trial.random, state, line.octets);
            trial.call(&call);
        }
    });
    reached.all("reading", [0, 4, 5]);
}

/// The remainder of each block that has a single 1, which the reader keeps: every other remainder is a sum of these.
#[test]
fn remainder_of_each_bit() {
    run("remainder_of_each_bit", u64::MAX, |trial| {
        let state = states::fresh_reader();
        for bit in 0..8 * BLOCK_OCTETS {
            let mut line = vec![0; BLOCK_OCTETS];
            line[bit / 8] = 0x80 >> (bit % 8);
            let call = draw::read_on(&mut trial.random, state, line);
            trial.call(&call);
        }
    });
}

#[test]
fn clean_sessions() {
    run("clean_sessions", 40, |trial| {
        let blocks = 10 + trial.random.below(30);
        let session = draw::session(&mut trial.random, blocks);
        read_all(trial, &session);
    });
}

/// Damaged in service bits and anywhere else, and slipped by some octets.
#[test]
fn damaged_sessions() {
    let reached = run("damaged_sessions", 20, |trial| {
        let blocks = 10 + trial.random.below(30);
        let mut session = draw::session(&mut trial.random, blocks);
        draw::damage(&mut trial.random, &mut session);
        read_all(trial, &session);
    });
    reached.all("standing", 0..=2);
    reached.all("verdict", 0..=2);
    reached.all("reading", 0..=6);
}

/// Reads block after block, each call going on from the octets that the library left; what is over at the end is
/// refused for its length.
fn read_all(trial: &mut Trial, session: &[u8]) {
    let mut state = states::fresh_reader();
    for line in session.chunks(160) {
        let call = draw::read_on(&mut trial.random, state, line.to_vec());
        state = trial.call(&call).state;
    }
}

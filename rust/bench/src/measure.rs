//! Runs the calls of a case so many times, by one contestant or by all in turn.
//!
//! The buffers of a contestant are reused from call to call and not cleared in between.

use std::hint::black_box;

use crate::clock::{self, time_of, Run};
use crate::contestants::Contestant;
use crate::forms::{LINE, LISTING, LSD, VOICE};
use crate::inputs::{Case, ReadInput, SendInput, Work};

fn send(contestant: &dyn Contestant, inputs: &[SendInput], calls: usize) {
    let mut line = [0; LINE];
    for input in inputs.iter().cycle().take(calls) {
        let mut state = input.state;
        let answer = contestant.send(&mut state, black_box(&input.offer()), &mut line);
        black_box((answer, &state, &line));
    }
}

fn read(contestant: &dyn Contestant, inputs: &[ReadInput], calls: usize) {
    let (mut voice, mut lsd) = ([0; VOICE], [0; LSD]);
    for input in inputs.iter().cycle().take(calls) {
        let mut state = input.state;
        let answer = contestant.read(&mut state, black_box(&input.line), &mut voice, &mut lsd);
        black_box((answer, &state, &voice, &lsd));
    }
}

fn search(contestant: &dyn Contestant, recordings: &[Vec<u8>], calls: usize) {
    for recording in recordings.iter().cycle().take(calls) {
        black_box(contestant.search(black_box(recording), 0));
    }
}

fn list(contestant: &dyn Contestant, recording: &[u8], calls: usize) {
    let mut text = [0; LISTING];
    for _ in 0..calls {
        black_box(contestant.list(black_box(recording), &mut text));
        black_box(&text);
    }
}

fn run(contestant: &dyn Contestant, work: &Work, calls: usize) {
    match work {
        Work::Send(inputs) => send(contestant, inputs, calls),
        Work::Read(inputs) => read(contestant, inputs, calls),
        Work::Search(recordings) => search(contestant, recordings, calls),
        Work::List(recording) => list(contestant, recording, calls),
    }
}

/// Nanoseconds of one call of each contestant.
pub fn case(contestants: &[Box<dyn Contestant>], case: &Case) -> Vec<f64> {
    clock::medians(&runs(contestants, case))
}

/// Nanoseconds of one call of each contestant, round by round.
pub fn rounds(contestants: &[Box<dyn Contestant>], case: &Case) -> Vec<Vec<f64>> {
    clock::rounds(&runs(contestants, case))
}

fn runs<'a>(contestants: &'a [Box<dyn Contestant>], case: &'a Case) -> Vec<Run<'a>> {
    let timed = |one: &'a dyn Contestant| Box::new(move |calls| time_of(|| run(one, &case.work, calls))) as Run;
    contestants.iter().map(|one| timed(one.as_ref())).collect()
}

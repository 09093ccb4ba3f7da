//! Saving and loading.

use differential::calls::{Load, Octets, Save, State, TellReader, TellSender};
use differential::{draw, states};
use model::random::Random;

use super::run;

fn state(random: &mut Random) -> State {
    match random.below(3) {
        0 => State::Sender(draw::sender(random)),
        1 => State::Reader(draw::reader(random)),
        _ => State::Walk(walk(random)),
    }
}

fn walk(random: &mut Random) -> states::Walk {
    states::walk(draw::reader(random), draw::switch(random), draw::place(random, 1000))
}

/// The length of some saved form, or another one.
fn length(random: &mut Random) -> usize {
    let any = random.below(40);
    random.pick(&[6, 6, 12, 12, 21, 21, any])
}

#[test]
fn states_are_saved() {
    let reached = run("states_are_saved", 1, |trial| {
        let random = &mut trial.random;
        let (state, length) = (state(random), length(random));
        let saved = Octets(random.octets(length));
        trial.call(&Save { state, saved });
    });
    reached.all("saved", 0..=1);
}

/// What was loaded is asked for, too.
#[test]
fn states_are_loaded() {
    let reached = run("states_are_loaded", 1, |trial| {
        let random = &mut trial.random;
        let (state, length) = (state(random), length(random));
        let saved = Octets(random.octets(length));
        match trial.call(&Load { state, saved }).state {
            State::Sender(state) => drop(trial.call(&TellSender { state })),
            State::Reader(state) => drop(trial.call(&TellReader { state })),
            State::Walk(_) => {}
        }
    });
    reached.all("loaded", 0..=1);
}

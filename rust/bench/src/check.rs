//! Every contestant is held to the model: octets, answers and states.

use std::fmt::Debug;

use crate::contestants::{self, Contestant};
use crate::forms::{Offer, ReadAnswer, Reader, SearchAnswer, SendAnswer, Sender, LINE, LISTING, LSD, VOICE};
use crate::inputs::{Case, Part, Work};
use model::show::{parting, Octets};

/// What stands in a buffer that a call is to write.
const BEFORE: u8 = 0xA5;

/// What a call leaves.
#[derive(Debug, PartialEq, Eq)]
pub enum Left {
    /// A sending call: answer, state, line.
    Send(SendAnswer, Sender, Octets),
    /// A reading call: answer, state, voice, lsd.
    Read(ReadAnswer, Reader, Octets, Octets),
    /// A search.
    Search(SearchAnswer),
    /// A listing.
    List(Octets),
}

/// What a sending call leaves.
pub fn send(contestant: &dyn Contestant, mut state: Sender, offer: &Offer, line_length: usize) -> Left {
    let mut line = vec![BEFORE; line_length];
    let answer = contestant.send(&mut state, offer, &mut line);
    Left::Send(answer, state, Octets(line))
}

/// What a reading call leaves.
pub fn read(contestant: &dyn Contestant, mut state: Reader, line: &[u8], lengths: [usize; 2]) -> Left {
    let [mut voice, mut lsd] = lengths.map(|length| vec![BEFORE; length]);
    let answer = contestant.read(&mut state, line, &mut voice, &mut lsd);
    Left::Read(answer, state, Octets(voice), Octets(lsd))
}

/// What a listing leaves.
pub fn list(contestant: &dyn Contestant, recording: &[u8]) -> Left {
    let mut text = vec![BEFORE; LISTING];
    let length = contestant.list(recording, &mut text);
    text.truncate(length);
    Left::List(Octets(text))
}

fn lefts(contestant: &dyn Contestant, work: &Work) -> Vec<Left> {
    match work {
        Work::Send(inputs) => inputs.iter().map(|input| send(contestant, input.state, &input.offer(), LINE)).collect(),
        Work::Read(inputs) => {
            inputs.iter().map(|input| read(contestant, input.state, &input.line, [VOICE, LSD])).collect()
        }
        Work::Search(recordings) => {
            recordings.iter().map(|recording| Left::Search(contestant.search(recording, 0))).collect()
        }
        Work::List(recording) => vec![list(contestant, recording)],
    }
}

/// Holds what a contestant leaves to what the model leaves; the error says where they part.
pub fn same<L: PartialEq + Debug>(contestant: &dyn Contestant, about: &str, got: &L, wanted: &L) -> Result<(), String> {
    if got == wanted {
        return Ok(());
    }
    let (name, first) = (contestant.name(), parting(got, wanted));
    Err(format!("{name} differs from the model: {about}\n{first}\n got {got:?}\nwant {wanted:?}"))
}

/// Holds a contestant to the model on one case.
pub fn case(contestant: &dyn Contestant, case: &Case) -> Result<(), String> {
    let got = lefts(contestant, &case.work);
    let wanted = lefts(&contestants::yardstick(), &case.work);
    got.iter().zip(&wanted).try_for_each(|(got, wanted)| same(contestant, &case.label, got, wanted))
}

/// Holds every contestant to the model on everything that is timed.
pub fn all(contestants: &[Box<dyn Contestant>], parts: &[Part]) -> Result<(), String> {
    for contestant in contestants {
        for checked in parts.iter().flat_map(|part| &part.cases) {
            case(contestant.as_ref(), checked)?;
        }
    }
    Ok(())
}

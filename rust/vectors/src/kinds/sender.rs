//! One sending call on a state, in range or forged.

use super::refused;
use crate::part::Part;
use crate::states::Sender;
use crate::subject::{Call, Subject};
use crate::told::Told;
use crate::unfit::Unfit;

/// The octets of the buffer that a later request sends more data from.
pub const ECS: usize = 2;

pub fn tell<S: Subject>(given: &Part) -> Result<Told, Unfit> {
    let [state, call] = given.fields(["state", "call"])?;
    let [mute, code, a, e, t, voice, lsd, line, ecs] = call.items()?;
    ecs.later_buffer(ECS)?;
    let call = Call::read([&mute, &code, &a, &e, &t, &voice, &lsd])?;
    let mut line = line.octets()?;
    let mut sender = forged::<S>(&state)?;
    Ok(match send::<S>(&mut sender, &call, &mut line) {
        Ok(answer) => Told::Fields(vec![
            ("state", S::sender_state(&sender).told()),
            ("answer", Told::from(answer)),
            ("line", Told::Octets(line)),
        ]),
        Err(refused) => refused,
    })
}

/// A sender in the state that a case has, to the last number.
pub fn forged<S: Subject>(part: &Part) -> Result<S::Sender, Unfit> {
    let state = Sender::read(part)?;
    let sender = S::forged_sender(&state);
    match S::sender_state(&sender) {
        held if held == state => Ok(sender),
        held => Err(part.unfit(&format!("cannot be held by the {}, which has {held:?}", S::NAME))),
    }
}

/// Sends. A refusal has to leave the state and the line block as they were.
pub fn send<S: Subject>(sender: &mut S::Sender, call: &Call, line: &mut [u8]) -> Result<&'static str, Told> {
    let before = (S::sender_state(sender), line.to_vec());
    S::send(sender, call, line).map_err(|number| {
        let kept = [("state", S::sender_state(sender) == before.0), ("line", line == before.1)];
        refused(number, kept)
    })
}

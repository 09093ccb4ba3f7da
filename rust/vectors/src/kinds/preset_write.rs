//! A preset that is written.

use super::{refused, sender};
use crate::part::Part;
use crate::subject::Subject;
use crate::told::Told;
use crate::unfit::Unfit;

pub fn tell<S: Subject>(given: &Part) -> Result<Told, Unfit> {
    let [state] = given.fields(["state"])?;
    let sender = sender::forged::<S>(&state)?;
    let before = S::sender_state(&sender);
    Ok(match S::write_preset(&sender) {
        Ok(octets) => Told::Fields(vec![("octets", Told::Octets(octets.into()))]),
        Err(number) => refused(number, [("state", S::sender_state(&sender) == before)]),
    })
}

//! A search in a recording.

use super::{refused, unrestricted};
use crate::part::Part;
use crate::subject::Subject;
use crate::told::Told;
use crate::unfit::Unfit;

pub fn tell<S: Subject>(given: &Part) -> Result<Told, Unfit> {
    let [restricted, recording, start] = given.fields(["restricted", "recording", "start"])?;
    unrestricted(&restricted)?;
    Ok(match S::find(&recording.octets()?, start.number()?) {
        Ok(place) => Told::Fields(vec![("place", Told::Number(place))]),
        Err(number) => refused(number, []),
    })
}

//! The listing of a recording. It is never refused: one that cannot be searched has a listing that says so.

use super::unrestricted;
use crate::part::Part;
use crate::subject::Subject;
use crate::told::Told;
use crate::unfit::Unfit;

pub fn tell<S: Subject>(given: &Part) -> Result<Told, Unfit> {
    let [restricted, recording] = given.fields(["restricted", "recording"])?;
    unrestricted(&restricted)?;
    Ok(Told::Fields(vec![("text", Told::Text(S::list(&recording.octets()?)))]))
}

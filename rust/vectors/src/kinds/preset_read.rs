//! A preset that is read.

use super::refused;
use crate::json::Json;
use crate::part::Part;
use crate::subject::Subject;
use crate::told::Told;
use crate::unfit::Unfit;

pub fn tell<S: Subject>(given: &Part) -> Result<Told, Unfit> {
    let [preset] = given.fields(["octets"])?;
    Ok(match S::read_preset(octets(&preset)?) {
        Ok((sender, offer)) => Told::Fields(vec![
            ("state", S::sender_state(&sender).told()),
            ("data_code", Told::from(offer)),
            ("ecs_code", Told::Later(Json::Null)),
            ("note", Told::Later(Json::Number(0))),
        ]),
        Err(number) => refused(number, []),
    })
}

/// The sixteen bits of a preset. The library's call takes a number, so that no others can be given.
pub fn octets(part: &Part) -> Result<[u8; 2], Unfit> {
    part.octets()?.try_into().map_err(|_| part.unfit("has other than two octets, which no call takes"))
}

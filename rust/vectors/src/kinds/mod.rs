//! The kinds of cases: each takes apart what its calls are given, makes them, and tells what comes of them.

mod find;
mod hearing;
mod listing;
mod preset_read;
mod preset_write;
mod reader;
mod sender;
mod session;

use crate::json::Json;
use crate::part::Part;
use crate::subject::Subject;
use crate::told::Told;
use crate::unfit::Unfit;

/// What comes of a case by what it is given.
type Kind = fn(&Part) -> Result<Told, Unfit>;

/// How many kinds there are.
const COUNT: usize = 8;

fn table<S: Subject>() -> [(&'static str, Kind); COUNT] {
    [
        ("session", session::tell::<S>),
        ("hearing", hearing::tell::<S>),
        ("sender", sender::tell::<S>),
        ("reader", reader::tell::<S>),
        ("find", find::tell::<S>),
        ("listing", listing::tell::<S>),
        ("preset_read", preset_read::tell::<S>),
        ("preset_write", preset_write::tell::<S>),
    ]
}

/// The names of all kinds.
pub fn names<S: Subject>() -> [&'static str; COUNT] {
    table::<S>().map(|(name, _)| name)
}

/// What comes of a case of this kind.
pub fn tell<S: Subject>(kind: &str, given: &Part) -> Result<Told, Unfit> {
    match table::<S>().into_iter().find(|(name, _)| *name == kind) {
        Some((_, tell)) => tell(given),
        None => Err(Unfit(format!("no module of `kinds` runs the kind {kind:?}, which a later request brings"))),
    }
}

/// Asks that a case is not about a restricted network, which only a later request knows.
fn unrestricted(part: &Part) -> Result<(), Unfit> {
    part.later(&Json::Number(0))
}

/// A refusal, with the names of the things that it has changed.
fn refused<const N: usize>(number: u8, kept: [(&'static str, bool); N]) -> Told {
    let changed = kept.into_iter().filter(|(_, kept)| !kept).map(|(name, _)| name);
    Told::Refused(number.into(), changed.collect())
}

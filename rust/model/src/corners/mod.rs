//! Corner cases, each made for a decision, and their outcomes, which `tests/corners` stores.

pub mod case;
mod leaf;
pub mod outcome;
mod reader;
mod recording;
mod sender;
pub mod stored;

use case::Case;

/// A case with its name.
#[derive(Clone, Debug)]
pub struct Corner {
    /// The decision that the case is about.
    pub id: &'static str,
    /// What it shows.
    pub about: String,
    /// The case itself.
    pub case: Case,
}

/// The corner cases of all kinds.
pub fn corners() -> Vec<Corner> {
    let parts = [sender::corners(), reader::corners(), recording::corners(), leaf::corners()];
    parts.into_iter().flatten().collect()
}

//! One stored case.

use crate::json::{self, Json};
use crate::part::Part;
use crate::unfit::Unfit;

/// A line of a file.
#[derive(Clone, Debug)]
pub struct Case {
    /// Its name, unlike any other.
    pub id: String,
    /// The request that it is drawn for: the answers are right just after that has landed.
    pub stage: String,
    /// What is called.
    pub kind: String,
    /// What the calls are given.
    pub given: Json,
    /// What has to come of them.
    pub out: Json,
}

impl Case {
    /// Reads a line.
    pub fn read(line: &str) -> Result<Case, Unfit> {
        let whole = json::read(line)?;
        let [id, stage, kind, given, out] = Part::new("case", &whole).fields(["id", "stage", "kind", "in", "out"])?;
        Ok(Case {
            id: id.text()?.to_string(),
            stage: stage.text()?.to_string(),
            kind: kind.text()?.to_string(),
            given: given.value.clone(),
            out: out.value.clone(),
        })
    }
}

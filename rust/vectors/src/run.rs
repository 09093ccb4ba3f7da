//! Runs cases.

use std::collections::{BTreeMap, BTreeSet};

use crate::case::Case;
use crate::kinds;
use crate::part::Part;
use crate::subject::Subject;
use crate::told::Difference;
use crate::unfit::Unfit;

/// The most differences of one case that are printed.
const SHOWN: usize = 3;

/// What the cases of a file came to.
#[derive(Debug, Default)]
pub struct Report {
    /// How many cases of each kind were run.
    pub counts: BTreeMap<String, usize>,
    /// What is wrong, a text for each case.
    pub wrong: Vec<String>,
}

impl Report {
    /// How many cases were run.
    pub fn total(&self) -> usize {
        self.counts.values().sum()
    }
}

/// Where the library or the model does not do what a case says.
pub fn run<S: Subject>(case: &Case) -> Result<Vec<Difference>, Unfit> {
    let _told_in_a_panic = Running { id: &case.id, name: S::NAME };
    let told = kinds::tell::<S>(&case.kind, &Part::new("in", &case.given))?;
    told.differences(&Part::new("out", &case.out))
}

/// Runs every line of a file that is drawn for the request `stage`.
pub fn run_all<S: Subject>(stage: &str, text: &str) -> Report {
    let mut report = Report::default();
    let mut ids = BTreeSet::new();
    for (index, line) in text.lines().enumerate() {
        match Case::read(line) {
            Err(unfit) => report.wrong.push(format!("line {}: {unfit}", index + 1)),
            Ok(case) if case.stage != stage => {
                report.wrong.push(format!("{}: drawn for {}, and not for {stage}", case.id, case.stage));
            }
            Ok(case) if !ids.insert(case.id.clone()) => report.wrong.push(format!("{}: stands here twice", case.id)),
            Ok(case) => {
                *report.counts.entry(case.kind.clone()).or_default() += 1;
                report.wrong.extend(complaint::<S>(&case));
            }
        }
    }
    report
}

/// What is wrong with a case, as text; none where nothing is.
fn complaint<S: Subject>(case: &Case) -> Option<String> {
    let head = format!("{} ({}), {}", case.id, case.kind, S::NAME);
    let differences = match run::<S>(case) {
        Ok(differences) if differences.is_empty() => return None,
        Ok(differences) => differences,
        Err(unfit) => return Some(format!("{head}: cannot be run: {unfit}")),
    };
    let mut lines = vec![format!("{head}:")];
    lines.extend(differences.iter().take(SHOWN).map(|difference| format!("  {difference}")));
    if differences.len() > SHOWN {
        lines.push(format!("  and {} more", differences.len() - SHOWN));
    }
    Some(lines.join("\n"))
}

/// Says which case was under way when something panicked.
struct Running<'a> {
    id: &'a str,
    name: &'a str,
}

impl Drop for Running<'_> {
    fn drop(&mut self) {
        if std::thread::panicking() {
            eprintln!("the case under way was {}, on the {}", self.id, self.name);
        }
    }
}

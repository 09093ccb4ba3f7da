//! The corner cases: one at least for every decision, and the outcomes that are stored are the model's.

use std::collections::BTreeSet;
use std::fs;

use crate::stored::path;
use model::corners::case::Kind;
use model::corners::{corners, stored};
use model::fault::Fault;
use model::text::difference;

#[test]
fn every_decision_has_a_case() {
    let named: BTreeSet<&str> = corners().iter().map(|corner| corner.id).collect();
    for (letter, last) in [("G", 8), ("S", 23), ("R", 31), ("W", 9), ("L", 6), ("P", 5)] {
        for number in 1..=last {
            let id = format!("{letter}{number}");
            assert!(named.contains(id.as_str()), "no case for {id}");
        }
    }
}

#[test]
fn every_stored_outcome_is_the_models() {
    let cases = stored::read(&path("tests/corners"));
    assert_eq!(cases.len(), corners().len(), "as many cases are stored as there are");
    for stored in cases {
        if let Some(difference) = difference(&stored.outcome, &stored.case.outcome(Fault::None)) {
            panic!("the model leaves another outcome than the one that is stored\ncase {}: {difference}", stored.name);
        }
    }
}

/// An outcome that changes shows above. This shows a case that is new, gone or made in another way.
#[test]
fn the_stored_files_are_what_the_model_writes() {
    for kind in Kind::ALL {
        let name = format!("tests/corners/{}", stored::file(kind));
        let text = fs::read_to_string(path(&name)).unwrap_or_else(|error| panic!("{name}: {error}"));
        let lines = |text: &str| text.lines().map(str::to_string).collect::<Vec<_>>();
        if let Some(difference) = difference(&lines(&text), &lines(&stored::text(kind))) {
            panic!(
                "{name} is not what the model writes today: {difference}\nIf that is meant, \
                 `model corners tests/corners` writes the files anew, and what changes in them is to be read."
            );
        }
    }
}

#[test]
fn a_difference_is_told_by_its_place_in_few_words() {
    let long =
        |digit: &str| vec!["expect sent".to_string(), format!("line {}{digit}{}", "A".repeat(900), "B".repeat(900))];
    let told = difference(&long("0"), &long("1")).expect("they differ");
    assert!(told.starts_with("line 2 (line) from character 906 on\nwanted: ..AAAA"), "{told}");
    assert!(told.contains("A0BBB") && told.contains("A1BBB") && told.len() < 250, "{told}");
    assert_eq!(difference(&long("0"), &long("0")), None);
    let shorter = difference(&long("0"), &long("0")[..1]).expect("one line fewer");
    assert!(shorter.ends_with("got:    "), "{shorter}");
}

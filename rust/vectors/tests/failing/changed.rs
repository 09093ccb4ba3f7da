//! Every single value of a case's `out` counts: where one is another, that field is told, and no other.

use vectors::by_library::Library;
use vectors::by_model::Model;
use vectors::case::Case;
use vectors::json::Json;
use vectors::kinds;
use vectors::octets;
use vectors::run::run;
use vectors::subject::Subject;

use crate::stored::{at, first, is_refused, leaves, some};

/// The fields of an `out` that only later requests know.
const LATER: [&str; 14] = [
    ".ecs",
    ".chosen_iso",
    ".force_iso",
    ".restricted",
    ".ecs_code",
    ".note",
    ".standing",
    ".mode[2]",
    ".mode[3]",
    ".kept[2]",
    ".kept[3]",
    ".due[2]",
    ".due[3]",
    ".due[4]",
];

/// Another value of the same form.
fn other(value: &Json) -> Json {
    match value {
        Json::Number(number) => Json::Number(number ^ 1),
        Json::Text(text) => Json::Text(other_text(text)),
        _ => Json::Number(1),
    }
}

fn other_text(text: &str) -> String {
    match octets::read(text) {
        Some(mut octets) => {
            *octets.last_mut().expect("no buffer of a case is empty") ^= 1;
            octets::write(&octets)
        }
        None => format!("{}?", &text[..text.len() - 1]),
    }
}

/// Whether a field is a later request's. A sender's `kept` is, a reader's is a mode.
fn is_later(name: &str) -> bool {
    name.ends_with(".kept") || LATER.iter().any(|later| name.ends_with(later))
}

/// Changes each value of a case, one at a time.
fn change_each<S: Subject>(case: &Case) {
    assert_eq!(run::<S>(case), Ok(vec![]), "{}", case.id);
    for leaf in leaves("out", &case.out) {
        let mut changed = case.clone();
        let value = at(&mut changed.out, &leaf.way);
        *value = other(value);
        let found = run::<S>(&changed);
        // a reader's standing is asked for as one
        let name =
            leaf.name.split_once(".standing").map_or(leaf.name.clone(), |(before, _)| format!("{before}.standing"));
        match found {
            Err(unfit) => {
                assert!(is_later(&name) && unfit.0.starts_with(&format!("{name} is ")), "{} {name}: {unfit}", case.id);
            }
            Ok(found) => {
                let fields: Vec<&str> = found.iter().map(|difference| difference.field.as_str()).collect();
                assert!(!is_later(&name) && fields == [name.as_str()], "{} {name}: {fields:?}", case.id);
            }
        }
    }
}

fn change_some<S: Subject>() {
    for kind in kinds::names::<S>() {
        // a case with many blocks has many values
        let count = if ["session", "hearing", "listing"].contains(&kind) { 1 } else { 4 };
        let answered = some(kind, false, count);
        assert!(!answered.is_empty(), "no case of the kind {kind} is answered");
        for case in answered.into_iter().chain(some(kind, true, count)) {
            change_each::<S>(&case);
        }
    }
}

#[test]
fn each_value_by_the_library() {
    change_some::<Library>();
}

#[test]
fn each_value_by_the_model() {
    change_some::<Model>();
}

/// The fields that are told of a case on both sides.
fn told(case: &Case) -> [Vec<String>; 2] {
    [run::<Library>(case), run::<Model>(case)].map(|found| {
        let found = found.expect("the case can be run");
        found.into_iter().map(|difference| difference.field).collect()
    })
}

#[test]
fn a_refusal_where_there_is_none_and_none_where_there_is_one() {
    for kind in ["sender", "reader", "find", "preset_write"] {
        let (mut answered, mut refused) = (some(kind, false, 1).remove(0), some(kind, true, 1).remove(0));
        assert!(is_refused(&refused) && !is_refused(&answered));
        std::mem::swap(&mut answered.out, &mut refused.out);
        for case in [answered, refused] {
            assert_eq!(told(&case), [["out.refused"], ["out.refused"]], "{}", case.id);
        }
    }
}

#[test]
fn an_answer_too_few() {
    for (kind, list) in [("session", "out.calls"), ("hearing", "out.blocks")] {
        let mut case = first(kind);
        match at(&mut case.out, &[0]) {
            Json::List(answers) => drop(answers.pop()),
            other => panic!("{other} is no array"),
        }
        assert_eq!(told(&case), [[list], [list]]);
    }
}

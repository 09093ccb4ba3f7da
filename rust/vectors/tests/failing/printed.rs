//! What is printed of a case that fails.

use vectors::by_library::Library;
use vectors::by_model::Model;
use vectors::run::run_all;

use crate::stored::{some, text};

/// The line of the first case of a kind that is answered.
fn line(kind: &str) -> String {
    let id = some(kind, false, 1).remove(0).id;
    let line = text().lines().find(|line| line.contains(&format!("\"{id}\""))).map(str::to_string);
    line.expect("a case has a line")
}

#[test]
fn the_case_the_side_the_field_and_both_values() {
    let line = line("preset_write").replace(r#""octets":"9000""#, r#""octets":"9041""#);
    let wanted = "103-99 (preset_write), library:\n  out.octets\n    wanted: 9041\n    got:    9000";
    assert_eq!(run_all::<Library>("103", &line).wrong, [wanted]);
    let other = wanted.replace("library", "model");
    assert_eq!(run_all::<Model>("103", &line).wrong, [other]);
}

#[test]
fn long_values_are_cut() {
    let line = line("sender");
    let (head, octets) = line.rsplit_once(r#""line":""#).expect("a sending call leaves a line block");
    let line = format!("{head}\"line\":\"00{}", &octets[2..]);
    let wrong = run_all::<Model>("103", &line).wrong.concat();
    let longest = wrong.lines().map(str::len).max();
    assert_eq!(longest, Some("    wanted: ".len() + 200 + "..".len()), "{wrong}");
    assert!(wrong.contains("out.line from its place 0 on"), "{wrong}");
}

#[test]
fn a_case_that_cannot_be_run() {
    let line = line("find").replace(r#""kind":"find""#, r#""kind":"seek""#);
    let report = run_all::<Model>("103", &line);
    let [wrong] = &report.wrong[..] else { panic!("{report:?}") };
    assert!(wrong.contains("(seek), model: cannot be run: no module of `kinds` runs the kind \"seek\""), "{wrong}");
}

#[test]
fn a_case_that_stands_twice() {
    let line = line("find");
    let report = run_all::<Model>("103", &format!("{line}\n{line}\n"));
    let [wrong] = &report.wrong[..] else { panic!("{report:?}") };
    assert!(wrong.ends_with(": stands here twice") && report.total() == 1, "{report:?}");
}

#[test]
fn a_line_that_is_no_case_and_a_case_of_another_file() {
    let text = format!("{}\n{{\"id\": 5\n", line("find"));
    let report = run_all::<Model>("102", &text);
    let [other, none] = &report.wrong[..] else { panic!("{report:?}") };
    assert!(other.ends_with("drawn for 103, and not for 102"), "{other}");
    assert!(none.starts_with("line 2: no JSON that is known here"), "{none}");
    assert_eq!(report.total(), 0);
}

//! Cases that cannot be run say so, and are not passed over.

use vectors::by_library::Library;
use vectors::by_model::Model;
use vectors::case::Case;
use vectors::json::{self, Json};
use vectors::run::run;

use crate::stored::{first, named};

/// The complaint about a case, which is the same on both sides.
fn unfit(case: &Case) -> String {
    let [library, model] = [run::<Library>(case), run::<Model>(case)].map(|found| match found {
        Err(unfit) => unfit.0,
        Ok(found) => panic!("the case is run, with {found:?}"),
    });
    assert_eq!(library, model);
    library
}

/// The complaint about the first case of a kind where one value of what it is given is another.
fn given(kind: &str, name: &str, value: &str) -> String {
    let mut case = first(kind);
    *named("in", &mut case.given, name) = json::read(value).expect("the value is JSON");
    unfit(&case)
}

#[test]
fn a_kind_that_is_not_known() {
    let case = Case { kind: "walk".to_string(), ..first("find") };
    assert_eq!(unfit(&case), "no module of `kinds` runs the kind \"walk\", which a later request brings");
}

#[test]
fn what_is_given_for_a_later_request() {
    let only = "only a later request knows other than";
    for kind in ["session", "hearing", "listing", "find"] {
        assert_eq!(given(kind, "in.restricted", "1"), format!("in.restricted is 1: {only} 0"));
    }
    for field in ["ecs", "chosen_iso", "force_iso", "restricted"] {
        let name = format!("in.state.{field}");
        assert_eq!(given("sender", &name, "1"), format!("{name} is 1: {only} 0"));
        assert_eq!(given("preset_write", &name, "1"), format!("{name} is 1: {only} 0"));
    }
    assert_eq!(given("sender", "in.state.kept", "[]"), format!("in.state.kept is []: {only} null"));
    for name in ["mode[2]", "mode[3]", "kept[2]", "kept[3]", "due[1]", "due[2]", "due[3]", "due[4]", "restricted"] {
        let name = format!("in.state.{name}");
        assert_eq!(given("reader", &name, "16"), format!("{name} is 16: {only} 0"));
    }
    let standing = given("reader", "in.state.standing[1]", "1");
    assert_eq!(standing, format!("in.state.standing is [1, 1]: {only} [1, 0]"));
}

#[test]
fn words_that_only_a_later_request_has() {
    let item16 = given("sender", "in.state.due", "\"item16\"");
    assert_eq!(item16, "in.state.due is item16, which only a later request knows");
    let other = given("reader", "in.state.due[0]", "\"other\"");
    assert_eq!(other, "in.state.due[0] is other, which only a later request knows");
    let message = r#"{"kind": 25, "octets": "00"}"#;
    let offered = "offers a message, which only a later request sends";
    assert_eq!(given("session", "in.calls[0][1]", message), format!("in.calls[0][1] {offered}"));
    assert_eq!(given("sender", "in.call[1]", message), format!("in.call[1] {offered}"));
}

#[test]
fn buffers_that_only_a_later_request_refuses() {
    let only = "only a later request refuses other than";
    assert_eq!(given("session", "in.calls[0][7]", "\"00\""), format!("in.calls[0][7] has 1 octets: {only} 2"));
    assert_eq!(given("sender", "in.call[8]", "\"00*3\""), format!("in.call[8] has 3 octets: {only} 2"));
    assert_eq!(given("reader", "in.ecs", "\"\""), format!("in.ecs has 0 octets: {only} 2"));
    assert_eq!(given("reader", "in.collect", "\"00*254\""), format!("in.collect has 254 octets: {only} 255"));
}

#[test]
fn fields_that_are_new_or_missing() {
    let mut new = first("find");
    let mut missing = new.clone();
    let (Json::Fields(new_fields), Json::Fields(fields)) = (&mut new.given, &mut missing.given) else {
        panic!("what a search is given are fields");
    };
    new_fields.push(("shift".to_string(), Json::Number(0)));
    fields.remove(0);
    assert_eq!(unfit(&new), "in.shift is a field that is not known yet");
    assert_eq!(unfit(&missing), "in has no field restricted");
    let mut told = first("listing");
    let Json::Fields(fields) = &mut told.out else { panic!("a listing's answer are fields") };
    fields.push(("shift".to_string(), Json::Null));
    assert_eq!(unfit(&told), "out.shift is a field that is not known yet");
}

#[test]
fn values_that_are_none_of_a_kind() {
    assert_eq!(given("sender", "in.state.chosen", "256"), "in.state.chosen is more than an octet holds");
    assert_eq!(given("sender", "in.call[0]", "2"), "in.call[0] is neither 0 nor 1");
    assert_eq!(given("sender", "in.call[5]", "\"0\""), "in.call[5] has no octets in hex");
    let preset = given("preset_read", "in.octets", "\"90c000\"");
    assert_eq!(preset, "in.octets has other than two octets, which no call takes");
}

#[test]
fn a_state_that_one_side_cannot_hold() {
    let mut case = first("reader");
    *named("in", &mut case.given, "in.state.place") = Json::Number(0);
    let library = run::<Library>(&case).expect_err("block 0 stands for an unknown place");
    assert!(library.0.starts_with("in.state cannot be held by the library"), "{library}");
    *named("in", &mut case.given, "in.state.firsts") = Json::Number(64);
    let model = run::<Model>(&case).expect_err("the model has six first bits");
    assert!(model.0.starts_with("in.state cannot be held by the model"), "{model}");
}

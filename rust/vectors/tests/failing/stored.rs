//! Real cases to be changed.

use std::fs;
use std::path::Path;
use std::sync::OnceLock;

use vectors::case::Case;
use vectors::json::Json;

/// The lines of the first file.
pub fn text() -> String {
    let path = Path::new(env!("CARGO_MANIFEST_DIR")).join("../../tests/vectors/103.jsonl");
    fs::read_to_string(path).expect("the cases can be read")
}

/// Its cases, which are read once.
fn cases() -> &'static [Case] {
    static CASES: OnceLock<Vec<Case>> = OnceLock::new();
    CASES.get_or_init(|| text().lines().map(|line| Case::read(line).expect("a line is a case")).collect())
}

/// Whether a case has to be refused.
pub fn is_refused(case: &Case) -> bool {
    matches!(&case.out, Json::Fields(fields) if fields.iter().any(|(name, _)| name == "refused"))
}

/// The first cases of a kind, at most `count`, that are refused or not.
pub fn some(kind: &str, refused: bool, count: usize) -> Vec<Case> {
    let fits = |case: &Case| case.kind == kind && is_refused(case) == refused;
    cases().iter().filter(|case| fits(case)).take(count).cloned().collect()
}

/// The first case of a kind.
pub fn first(kind: &str) -> Case {
    cases().iter().find(|case| case.kind == kind).expect("there are cases of each kind").clone()
}

/// A value that holds no others, and the way to it by the numbers of fields and items.
pub struct Leaf {
    /// Its name in messages.
    pub name: String,
    /// The way to it.
    pub way: Vec<usize>,
}

/// All leaves of a value.
pub fn leaves(name: &str, value: &Json) -> Vec<Leaf> {
    let named: Vec<(String, &Json)> = match value {
        Json::Fields(fields) => fields.iter().map(|(field, value)| (format!("{name}.{field}"), value)).collect(),
        Json::List(items) => {
            items.iter().enumerate().map(|(index, value)| (format!("{name}[{index}]"), value)).collect()
        }
        _ => return vec![Leaf { name: name.to_string(), way: Vec::new() }],
    };
    let mut found = Vec::new();
    for (index, (name, value)) in named.into_iter().enumerate() {
        for mut leaf in leaves(&name, value) {
            leaf.way.insert(0, index);
            found.push(leaf);
        }
    }
    found
}

/// The value at the end of a way.
pub fn at<'a>(value: &'a mut Json, way: &[usize]) -> &'a mut Json {
    way.iter().fold(value, |value, &index| match value {
        Json::Fields(fields) => &mut fields[index].1,
        Json::List(items) => &mut items[index],
        _ => panic!("a way ends at a leaf"),
    })
}

/// The value of a name such as `in.state.due[0]`.
pub fn named<'a>(root: &str, value: &'a mut Json, name: &str) -> &'a mut Json {
    let leaf = leaves(root, value).into_iter().find(|leaf| leaf.name == name);
    at(value, &leaf.unwrap_or_else(|| panic!("the case has no {name}")).way)
}

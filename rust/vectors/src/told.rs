//! What comes of a case's calls, in the form of the case's own `out`, and how the two are held together.

use std::fmt;

use crate::json::Json;
use crate::octets;
use crate::part::Part;
use crate::unfit::Unfit;

/// What a library or a model tells.
#[derive(Clone, Debug)]
pub enum Told {
    /// Nothing, where there could be something.
    Null,
    /// A number.
    Number(usize),
    /// A text.
    Text(String),
    /// The octets of a buffer.
    Octets(Vec<u8>),
    /// A row of answers or values.
    List(Vec<Told>),
    /// All fields that the case has to have.
    Fields(Vec<(&'static str, Told)>),
    /// What only a later request can tell, and the value that says nothing till then.
    Later(Json),
    /// A refusal, and what it changed of all that it has to leave alone.
    Refused(usize, Vec<&'static str>),
}

impl From<u8> for Told {
    fn from(number: u8) -> Told {
        Told::Number(number.into())
    }
}

impl From<Option<u8>> for Told {
    fn from(number: Option<u8>) -> Told {
        number.map_or(Told::Null, Told::from)
    }
}

impl From<&str> for Told {
    fn from(text: &str) -> Told {
        Told::Text(text.to_string())
    }
}

/// A place where what is told is not what the case has.
#[derive(Clone, Debug, PartialEq, Eq)]
pub struct Difference {
    /// The field, such as `out.state.chosen`.
    pub field: String,
    /// The first octet or character that differs, counted from 0, where there are too many to show them all.
    pub from: Option<usize>,
    /// What the case has, from there on.
    pub wanted: String,
    /// What is told, from there on.
    pub got: String,
}

impl fmt::Display for Difference {
    fn fmt(&self, out: &mut fmt::Formatter) -> fmt::Result {
        out.write_str(&self.field)?;
        if let Some(from) = self.from {
            write!(out, " from its place {from} on")?;
        }
        write!(out, "\n    wanted: {}\n    got:    {}", cut(&self.wanted), cut(&self.got))
    }
}

/// The most characters that are shown of a value.
const SHOWN: usize = 200;

/// A text, its end left out where it is long.
pub fn cut(text: &str) -> String {
    match text.char_indices().nth(SHOWN) {
        Some((end, _)) => format!("{}..", &text[..end]),
        None => text.to_string(),
    }
}

impl Told {
    /// Where this is not what the case wants. A case that wants what only a later request can tell is unfit.
    pub fn differences(&self, wanted: &Part) -> Result<Vec<Difference>, Unfit> {
        match (self, wanted.refusal()?) {
            (Told::Refused(number, changed), refusal) => Ok(refused(*number, changed, refusal, wanted)),
            (_, Some(number)) => Ok(vec![differing(format!("{}.refused", wanted.name), number, "no refusal")]),
            (told, None) => told.answered(wanted),
        }
    }

    fn answered(&self, wanted: &Part) -> Result<Vec<Difference>, Unfit> {
        match self {
            Told::Fields(fields) => {
                let names: Vec<&str> = fields.iter().map(|(name, _)| *name).collect();
                in_turn(fields.iter().map(|(_, told)| told), wanted.fields_of(&names)?)
            }
            Told::List(items) => match wanted.list()? {
                parts if parts.len() == items.len() => in_turn(items.iter(), parts),
                parts => {
                    let [wanted_items, items] = [parts.len(), items.len()].map(|length| format!("{length} items"));
                    Ok(vec![differing(&wanted.name, wanted_items, items)])
                }
            },
            Told::Octets(got) => Ok(octets_part(&wanted.name, &wanted.octets()?, got)),
            Told::Text(got) => match wanted.value {
                Json::Text(text) => Ok(texts_part(&wanted.name, text, got)),
                other => Ok(vec![differing(&wanted.name, other, Json::Text(got.clone()))]),
            },
            Told::Number(number) => Ok(values_part(wanted, Json::Number(*number))),
            Told::Null => Ok(values_part(wanted, Json::Null)),
            Told::Later(neutral) => wanted.later(neutral).map(|()| Vec::new()),
            Told::Refused(..) => unreachable!("refusals are held before"),
        }
    }
}

/// The differences of several values, each beside its part of the case.
fn in_turn<'a>(told: impl Iterator<Item = &'a Told>, parts: Vec<Part>) -> Result<Vec<Difference>, Unfit> {
    let each: Result<Vec<_>, Unfit> = told.zip(parts).map(|(told, part)| told.differences(&part)).collect();
    Ok(each?.concat())
}

fn differing(field: impl Into<String>, wanted: impl fmt::Display, got: impl fmt::Display) -> Difference {
    Difference { field: field.into(), from: None, wanted: wanted.to_string(), got: got.to_string() }
}

fn refused(number: usize, changed: &[&str], refusal: Option<usize>, wanted: &Part) -> Vec<Difference> {
    let mut found = Vec::new();
    if refusal != Some(number) {
        let asked = refusal.map_or("no refusal".to_string(), |asked| asked.to_string());
        found.push(differing(format!("{}.refused", wanted.name), asked, number));
    }
    for part in changed {
        let field = format!("{} after the refusal: {part}", wanted.name);
        found.push(differing(field, "as it was", "changed"));
    }
    found
}

fn values_part(wanted: &Part, got: Json) -> Vec<Difference> {
    if *wanted.value == got {
        return Vec::new();
    }
    vec![differing(&wanted.name, wanted.value, got)]
}

fn octets_part(field: &str, wanted: &[u8], got: &[u8]) -> Vec<Difference> {
    rows_part(field, wanted, got, 2, octets::write)
}

fn texts_part(field: &str, wanted: &str, got: &str) -> Vec<Difference> {
    let [wanted, got] = [wanted, got].map(|text| text.chars().collect::<Vec<char>>());
    rows_part(field, &wanted, &got, 1, |text| format!("{:?}", text.iter().collect::<String>()))
}

/// The difference of two rows whose items take so many characters each. Long ones are shown from where they part.
fn rows_part<T: PartialEq>(
    field: &str,
    wanted: &[T],
    got: &[T],
    width: usize,
    show: fn(&[T]) -> String,
) -> Vec<Difference> {
    if wanted == got {
        return Vec::new();
    }
    let common = wanted.iter().zip(got).take_while(|(one, other)| one == other).count();
    let long = width * wanted.len().max(got.len()) > SHOWN;
    let start = if long { common } else { 0 };
    let [wanted, got] = [wanted, got].map(|row| show(&row[start..]));
    vec![Difference { field: field.to_string(), from: long.then_some(start), wanted, got }]
}

//! The stored text of corner cases: how it is written, and how it is read again.
//!
//! A case is a paragraph. Its first line names it; the lines up to `expect` are its inputs, the lines from there on
//! its outcome. An input that is not named is that of the case before, and `call` begins all inputs anew.

use std::collections::BTreeMap;
use std::path::Path;
use std::str::FromStr;

use super::case::{Case, Kind, ReaderCase, SenderCase, WalkCase};
use super::corners;
use crate::codes::Mode;
use crate::fault::Fault;
use crate::reader::ReaderState;
use crate::sender::SenderState;
use crate::service::Flags;
use crate::slots::Due;

/// A case as it is stored.
#[derive(Debug)]
pub struct Stored {
    /// The decision and what the case shows.
    pub name: String,
    /// The inputs.
    pub case: Case,
    /// The lines of the outcome.
    pub outcome: Vec<String>,
}

/// The text of the cases of one kind, with the outcomes that the model has today.
pub fn text(kind: Kind) -> String {
    let mut text = "# Written by `model corners`. The file rust/README.md tells the form.\n".to_string();
    let mut before = Vec::new();
    for corner in corners().into_iter().filter(|corner| corner.case.kind() == kind) {
        text += &format!("\ncase {} {}\n", corner.id, corner.about);
        let inputs = corner.case.inputs();
        let same_call = before.first() == inputs.first();
        let named = inputs.iter().filter(|input| !(same_call && before.contains(input)));
        for line in named.chain(&corner.case.outcome(Fault::None)) {
            text += &format!("{line}\n");
        }
        before = inputs;
    }
    text
}

/// The name of a kind's file.
pub fn file(kind: Kind) -> String {
    format!("{}.txt", kind.name())
}

/// The cases that are stored in a folder.
///
/// # Panics
/// Where a file is missing, or its text is not of the form.
pub fn read(folder: &Path) -> Vec<Stored> {
    let read = |kind| {
        let path = folder.join(file(kind));
        let text = std::fs::read_to_string(&path).unwrap_or_else(|error| panic!("{path:?}: {error}"));
        parse(&text)
    };
    Kind::ALL.into_iter().flat_map(read).collect()
}

type Inputs = BTreeMap<String, String>;

/// The cases of a text.
fn parse(text: &str) -> Vec<Stored> {
    let mut inputs = Inputs::new();
    text.split("\n\n").skip(1).map(|paragraph| parse_case(paragraph, &mut inputs)).collect()
}

fn parse_case(paragraph: &str, inputs: &mut Inputs) -> Stored {
    let (head, rest) = paragraph.split_once('\n').expect("a case has lines");
    let name = head.strip_prefix("case ").unwrap_or_else(|| panic!("\"{head}\" names no case"));
    let mut lines = rest.lines().peekable();
    while let Some(line) = lines.next_if(|line| !line.starts_with("expect ")) {
        let (key, value) = line.split_once(' ').unwrap_or_else(|| panic!("{name}: \"{line}\" has no value"));
        if key == "call" {
            inputs.clear();
        }
        inputs.insert(key.to_string(), value.to_string());
    }
    Stored { name: name.to_string(), case: case(inputs), outcome: lines.map(str::to_string).collect() }
}

fn case(inputs: &Inputs) -> Case {
    let value = |key: &str| inputs.get(key).map_or_else(|| panic!("no input {key}"), String::as_str);
    let buffer = |key: &str| octets(value(key));
    let code = || octets(value("code"))[0];
    match value("call") {
        "send" => Case::Sender(SenderCase {
            state: sender_state(value("state")),
            mute: switch(value("mute")),
            offered: buffer("offered")[0],
            flags: flags(value("flags")),
            voice: buffer("voice"),
            data: buffer("data"),
            line: buffer("line"),
        }),
        "read" => {
            let state = reader_state(value("state"));
            Case::Reader(ReaderCase { state, line: buffer("line"), voice: buffer("voice"), data: buffer("data") })
        }
        "step" => Case::Walk(WalkCase {
            recording: buffer("recording"),
            place: number(value("place")),
            searching: switch(value("searching")),
            state: reader_state(value("state")),
            voice: buffer("voice"),
            data: buffer("data"),
        }),
        "search" => Case::Search(buffer("recording"), number(value("start"))),
        "list" => Case::Listing(buffer("recording")),
        "read preset" => Case::PresetRead(buffer("preset")),
        "write preset" => Case::PresetWrite(sender_state(value("state"))),
        "check octet" => Case::Check(code()),
        "word sent" => Case::Sent(code()),
        "word read" => Case::ReadWord(buffer("word").try_into().expect("a word has two octets")),
        "remainder" => Case::Crc(buffer("block")),
        "service rows" => Case::Service(flags(value("flags")), number(value("remainder"))),
        call => panic!("there is no call \"{call}\""),
    }
}

fn octets(text: &str) -> Vec<u8> {
    let octet = |digits: &str| u8::from_str_radix(digits, 16).unwrap_or_else(|_| panic!("\"{digits}\" is no octet"));
    let part = |part: &str| match part.split_once('*') {
        Some((digits, times)) => vec![octet(digits); number(times)],
        None => (0..part.len() / 2).map(|index| octet(&part[2 * index..2 * index + 2])).collect(),
    };
    match text {
        "-" => Vec::new(),
        _ => text.split('+').flat_map(part).collect(),
    }
}

fn number<N: FromStr>(text: &str) -> N {
    text.parse().unwrap_or_else(|_| panic!("\"{text}\" is no number in range"))
}

fn switch(text: &str) -> bool {
    number::<u8>(text) == 1
}

/// The value of a name among `NAME=VALUE`s.
fn field<'a>(text: &'a str, name: &str) -> &'a str {
    let fields = text.split(' ').filter_map(|field| field.split_once('='));
    let named = fields.into_iter().find(|(key, _)| *key == name);
    named.unwrap_or_else(|| panic!("no {name} in \"{text}\"")).1
}

fn flags(text: &str) -> Flags {
    let [a, e, t] = ["a", "e", "t"].map(|name| switch(field(text, name)));
    Flags { a, e, t }
}

fn sender_state(text: &str) -> SenderState {
    SenderState {
        chosen: number(field(text, "chosen")),
        in_force: number(field(text, "in_force")),
        data: number(field(text, "data")),
        block: number(field(text, "block")),
        item_due: switch(field(text, "item_due")),
        remainder: number(field(text, "remainder")),
    }
}

fn reader_state(text: &str) -> ReaderState {
    let first_bits: Vec<bool> = field(text, "first_bits").chars().map(|digit| digit == '1').collect();
    ReaderState {
        mode: mode(field(text, "mode")),
        kept: mode(field(text, "kept")),
        wrong_words: number(field(text, "wrong_words")),
        block: match field(text, "block") {
            "unknown" => None,
            block => Some(number(block)),
        },
        wrong_patterns: number(field(text, "wrong_patterns")),
        first_bits: first_bits.try_into().expect("six first bits are kept"),
        due: due(field(text, "due")),
        before: switch(field(text, "before")),
        remainder: number(field(text, "remainder")),
    }
}

fn mode(text: &str) -> Mode {
    let (audio, data) = text.split_once(',').unwrap_or_else(|| panic!("\"{text}\" is no mode"));
    Mode { audio: number(audio), data: number(data) }
}

fn due(text: &str) -> Due {
    match text {
        "nothing" => Due::Nothing,
        "item" => Due::Item,
        "count" => Due::Count,
        message => Due::Message(number(message.trim_start_matches("message:"))),
    }
}

//! The lines that tell what a call leaves. The first begins with `expect`; a refused call leaves nothing else.
//!
//! The library's outcomes are put into the same lines, so that both can be held to what is stored.

use crate::reader::{BlockAnswer, ReaderState};
use crate::recording::Step;
use crate::sender::{Answer, SenderState};
use crate::slots::Due;
use crate::text;

/// Any call that is refused: all is as it was given.
pub fn refused(number: u8) -> Vec<String> {
    vec![format!("expect refused {number}")]
}

/// A sending call: its answer, the state and the line block.
pub fn sent(answer: Answer, state: &SenderState, line: &[u8]) -> Vec<String> {
    let answer = match answer {
        Answer::Sent => "expect sent",
        Answer::Held => "expect held",
    };
    vec![answer.to_string(), sender_state(state), format!("line {}", text::octets(line))]
}

/// A reading call: its answer, the state, and voice and data.
pub fn read(answer: BlockAnswer, state: &ReaderState, streams: [&[u8]; 2]) -> Vec<String> {
    let mut lines = vec![format!("expect {}", text::block_answer(answer)), reader_state(&settled(state))];
    lines.extend(stream_lines(streams));
    lines
}

/// A walk's step: its answer, the place and whether a search is next, the reader's state, and voice and data.
pub fn stepped(step: Step, (place, searching): (usize, bool), state: &ReaderState, streams: [&[u8]; 2]) -> Vec<String> {
    let answer = match step {
        Step::Block(answer) => format!("expect block {}", text::block_answer(answer)),
        Step::Place(place) => format!("expect place {place}"),
        Step::End(left) => format!("expect end {left}"),
    };
    let mut lines = vec![answer, format!("place {place}"), format!("searching {}", u8::from(searching))];
    lines.push(reader_state(&settled(state)));
    lines.extend(stream_lines(streams));
    lines
}

/// A search that finds a place.
pub fn found(place: usize) -> Vec<String> {
    vec![format!("expect found {place}")]
}

/// A listing, line by line.
pub fn listed(listing: &str) -> Vec<String> {
    let mut lines = vec![format!("expect lines {}", listing.lines().count())];
    lines.extend(listing.lines().map(|line| format!("> {line}")));
    lines
}

/// A preset that is read: the state, and the data code to offer.
pub fn preset_read(state: &SenderState, offer: u8) -> Vec<String> {
    vec![format!("expect offer {offer:02X}"), sender_state(state)]
}

/// A preset that is written.
pub fn preset_written(bits: u16) -> Vec<String> {
    vec![format!("expect preset {bits:04X}")]
}

/// The check octet of a code.
pub fn check_octet(octet: u8) -> Vec<String> {
    vec![format!("expect octet {octet:02X}")]
}

/// A word in the order of the line: even frame, odd frame.
pub fn word_sent(word: [u8; 2]) -> Vec<String> {
    vec![format!("expect word {}", text::hex(&word))]
}

/// The code that a word is read as, if any.
pub fn word_read(code: Option<u8>) -> Vec<String> {
    vec![code.map_or("expect unreadable".to_string(), |code| format!("expect code {code:02X}"))]
}

/// The remainder of a block.
pub fn remainder(remainder: u8) -> Vec<String> {
    vec![format!("expect remainder {remainder}")]
}

/// The sixteen rows of service bits.
pub fn rows(rows: &[[bool; 8]; 16]) -> Vec<String> {
    vec![format!("expect rows {}", rows.map(|row| text::bits(&row)).join(" "))]
}

/// A sender's state.
pub fn sender_state(state: &SenderState) -> String {
    format!("state {}", text::sender_state(state))
}

/// A reader's state.
pub fn reader_state(state: &ReaderState) -> String {
    format!("state {}", text::reader_state(state))
}

fn stream_lines([voice, data]: [&[u8]; 2]) -> [String; 2] {
    [format!("voice {}", text::octets(voice)), format!("data {}", text::octets(data))]
}

/// No message words due is written as nothing due on the way out (R27).
fn settled(state: &ReaderState) -> ReaderState {
    ReaderState {
        due: match state.due {
            Due::Message(0) => Due::Nothing,
            due => due,
        },
        ..*state
    }
}

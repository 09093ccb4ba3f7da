//! How values stand in printed text.

use crate::codes::Mode;
use crate::listing::{standing_name, verdict_name};
use crate::reader::{BlockAnswer, ReaderState};
use crate::sender::SenderState;
use crate::service::Flags;
use crate::slots::{Due, Reading};

/// Runs of at least so many equal octets are written with their count.
const SHORTEST_RUN: usize = 8;

/// Octets as hex digits, long runs of one octet as `HH*N`, parts joined by `+`, no octet as `-`.
pub fn octets(octets: &[u8]) -> String {
    if octets.is_empty() {
        return "-".to_string();
    }
    let mut parts: Vec<String> = Vec::new();
    let mut digits = String::new();
    for run in octets.chunk_by(|one, next| one == next) {
        if run.len() < SHORTEST_RUN {
            digits += &hex(run);
            continue;
        }
        parts.extend((!digits.is_empty()).then(|| std::mem::take(&mut digits)));
        parts.push(format!("{:02X}*{}", run[0], run.len()));
    }
    parts.extend((!digits.is_empty()).then_some(digits));
    parts.join("+")
}

/// Octets as capital hex digits.
pub fn hex(octets: &[u8]) -> String {
    octets.iter().map(|octet| format!("{octet:02X}")).collect()
}

/// Bits as the digits 0 and 1.
pub fn bits(bits: &[bool]) -> String {
    bits.iter().map(|&bit| digit(bit)).collect()
}

fn digit(bit: bool) -> char {
    if bit {
        '1'
    } else {
        '0'
    }
}

/// The three flags of a sending call.
pub fn flags(flags: Flags) -> String {
    let [a, e, t] = [flags.a, flags.e, flags.t].map(digit);
    format!("a={a} e={e} t={t}")
}

/// A sender's state.
pub fn sender_state(state: &SenderState) -> String {
    let SenderState { chosen, in_force, data, block, item_due, remainder } = *state;
    let item = digit(item_due);
    format!("chosen={chosen} in_force={in_force} data={data} block={block} item_due={item} remainder={remainder}")
}

/// A reader's state.
pub fn reader_state(state: &ReaderState) -> String {
    let mode = |mode: Mode| format!("{},{}", mode.audio, mode.data);
    let block = state.block.map_or("unknown".to_string(), |b| b.to_string());
    [
        format!("mode={}", mode(state.mode)),
        format!("kept={}", mode(state.kept)),
        format!("wrong_words={}", state.wrong_words),
        format!("block={block}"),
        format!("wrong_patterns={}", state.wrong_patterns),
        format!("first_bits={}", bits(&state.first_bits)),
        format!("due={}", due(state.due)),
        format!("before={}", digit(state.before)),
        format!("remainder={}", state.remainder),
    ]
    .join(" ")
}

fn due(due: Due) -> String {
    match due {
        Due::Nothing => "nothing".to_string(),
        Due::Item => "item".to_string(),
        Due::Count => "count".to_string(),
        Due::Message(words) => format!("message:{words}"),
    }
}

/// The answer to a block: state, CRC, word.
pub fn block_answer(answer: BlockAnswer) -> String {
    let standing = standing_name(answer.standing);
    let verdict = verdict_name(answer.verdict);
    format!("{standing} {verdict} {}", reading(answer.word))
}

fn reading(reading: Reading) -> String {
    match reading {
        Reading::Mended(code) => format!("mended:{code:02X}"),
        Reading::Item(code) => format!("item:{code:02X}"),
        Reading::MessageWord(code) => format!("message:{code:02X}"),
        Reading::ForbiddenItem(code) => format!("forbidden:{code:02X}"),
        Reading::NotFollowed(code) => format!("not_followed:{code:02X}"),
        Reading::Unreadable => "unreadable".to_string(),
        Reading::NotRead => "not_read".to_string(),
    }
}

/// How many characters of a line are shown before and after the place where two lines part.
const SHOWN: [usize; 2] = [24, 40];

/// The first place where lines are not what they should be, with what stands around it; nothing where they are alike.
pub fn difference(wanted: &[String], got: &[String]) -> Option<String> {
    let line = |lines: &[String], index: usize| lines.get(index).cloned().unwrap_or_default();
    let lines = wanted.len().max(got.len());
    let index = (0..lines).find(|&index| wanted.get(index) != got.get(index))?;
    let (wanted, got) = (line(wanted, index), line(got, index));
    let place = wanted.bytes().zip(got.bytes()).take_while(|(one, other)| one == other).count();
    let key = wanted.split(' ').next().unwrap_or_default();
    let (wanted, got) = (around(&wanted, place), around(&got, place));
    Some(format!("line {} ({key}) from character {} on\nwanted: {wanted}\ngot:    {got}", index + 1, place + 1))
}

/// What stands around a place of a line.
fn around(line: &str, place: usize) -> String {
    let [before, after] = SHOWN;
    let (start, end) = (place.saturating_sub(before), line.len().min(place + after));
    let (left, right) = (if start > 0 { ".." } else { "" }, if end < line.len() { ".." } else { "" });
    format!("{left}{}{right}", line.get(start..end).unwrap_or_default())
}

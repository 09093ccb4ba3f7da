//! Saved states. A form is known by its length, and its octets are the fields of a state in order; a place has eight octets,
//! the lowest first. 01 does not speak of them.
//!
//! Every row of octets is a state, in range or not. The model tells fewer states apart than there are rows:
//!
//! - A sender's `due` is "no" for 0 and "yes" for all others; a call that is not refused leaves 0 or 1 (F14).
//! - A reader's block 0 is the unknown place.
//! - Of a reader's `firsts` the last six bits count, and a block leaves no more than those (R29).
//! - A slot of kind 3 or above is a message, and one with no words left is the same as a plain word; a block leaves
//!   kind 0 then (R27). No decision says which number a message leaves, nor the words beside the other kinds: kind 3
//!   and 0 words are the library's own choice, asked for here so that it stays one.
//! - `before` is "no" for 0 and "yes" for all others; a block leaves 0 or 1. The remainder is judged in both cases (R28).
//! - A walk's mark of a lost block is "no" for 0 and "yes" for all others.

use crate::codes::Mode;
use crate::reader::ReaderState;
use crate::sender::SenderState;
use crate::slots::Due;

/// A saved sender: chosen audio, mode in force (audio, data), block, due, remainder.
pub type Sender = [u8; 6];

/// A saved reader: mode in force, mode kept (audio and data each), wrong words, block, first bits, wrong patterns, slot
/// (kind, words), before, remainder.
pub type Reader = [u8; 12];

/// A saved walk: its reader, the mark of a lost block, the place.
pub type Walk = [u8; 21];

/// The sender that was saved; none where no form has this length.
pub fn load_sender(saved: &[u8]) -> Option<SenderState> {
    let [chosen, in_force, data, block, due, remainder] = Sender::try_from(saved).ok()?;
    Some(SenderState { chosen, in_force, data, block, item_due: due != 0, remainder })
}

/// A sender as it is saved.
pub fn save_sender(state: &SenderState) -> Sender {
    [state.chosen, state.in_force, state.data, state.block, state.item_due.into(), state.remainder]
}

/// The reader that was saved; none where no form has this length.
pub fn load_reader(saved: &[u8]) -> Option<ReaderState> {
    let [audio, data, kept_audio, kept_data, wrong, block, firsts, misses, kind, words, before, remainder] =
        Reader::try_from(saved).ok()?;
    Some(ReaderState {
        mode: Mode { audio, data },
        kept: Mode { audio: kept_audio, data: kept_data },
        wrong_words: wrong,
        block: (block != 0).then_some(block),
        wrong_patterns: misses,
        first_bits: std::array::from_fn(|index| firsts >> (5 - index) & 1 == 1),
        due: match kind {
            0 => Due::Nothing,
            1 => Due::Item,
            2 => Due::Count,
            _ => Due::Message(words.into()),
        },
        before: before != 0,
        remainder,
    })
}

/// A reader as it is saved; none where octets cannot hold it.
pub fn save_reader(state: &ReaderState) -> Option<Reader> {
    let block = match state.block {
        None => 0,
        Some(0) => return None,
        Some(number) => number,
    };
    let firsts = state.first_bits.iter().fold(0, |sum, &bit| sum << 1 | u8::from(bit));
    let (kind, words) = match state.due {
        Due::Nothing | Due::Message(0) => (0, 0),
        Due::Item => (1, 0),
        Due::Count => (2, 0),
        Due::Message(words) => (3, u8::try_from(words).ok()?),
    };
    Some([
        state.mode.audio,
        state.mode.data,
        state.kept.audio,
        state.kept.data,
        state.wrong_words,
        block,
        firsts,
        state.wrong_patterns,
        kind,
        words,
        state.before.into(),
        state.remainder,
    ])
}

/// The walk that was saved: its reader, whether a block was lost, the place; none where no form has this length.
pub fn load_walk(saved: &[u8]) -> Option<(ReaderState, bool, u64)> {
    let [reader @ .., lost, p0, p1, p2, p3, p4, p5, p6, p7] = Walk::try_from(saved).ok()?;
    let place = u64::from_le_bytes([p0, p1, p2, p3, p4, p5, p6, p7]);
    Some((load_reader(&reader)?, lost != 0, place))
}

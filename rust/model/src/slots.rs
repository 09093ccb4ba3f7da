//! What a BAS word means where it stands (01, "Slots", and the followed commands of "Reading a block").

use crate::codes::{self, Mode, AUDIO, AUDIO_OFF, DATA, DATA_OFF, ESCAPE, NEUTRAL};

/// What the next word will be.
#[derive(Clone, Copy, Debug, PartialEq, Eq)]
pub enum Due {
    /// A plain word.
    Nothing,
    /// An item.
    Item,
    /// The number N of a message's words.
    Count,
    /// So many words of a message. Over 255 is out of range, 0 the same as nothing (R27).
    Message(u16),
}

/// The reading of a block's BAS word.
#[derive(Clone, Copy, Debug, PartialEq, Eq)]
pub enum Reading {
    /// A plain code, mended or whole (R15).
    Mended(u8),
    /// An item.
    Item(u8),
    /// N, or a word of a message (R11).
    MessageWord(u8),
    /// An item of attribute 111.
    ForbiddenItem(u8),
    /// A plain code of attributes 000 to 011 that is not carried.
    NotFollowed(u8),
    /// No code word is near, or more than two alignment bits are wrong.
    Unreadable,
    /// The block is lost, or its place in the multiframe unknown.
    NotRead,
}

impl Reading {
    /// The code, where one was read.
    pub fn code(self) -> Option<u8> {
        match self {
            Reading::Mended(code)
            | Reading::Item(code)
            | Reading::MessageWord(code)
            | Reading::ForbiddenItem(code)
            | Reading::NotFollowed(code) => Some(code),
            Reading::Unreadable | Reading::NotRead => None,
        }
    }
}

/// Takes one word, `None` where it is unreadable: its reading, what is due next, and the mode after it.
pub fn take(due: Due, mode: Mode, code: Option<u8>) -> (Reading, Due, Mode) {
    let (reading, next) = match due {
        Due::Nothing | Due::Message(0) => return take_plain(mode, code),
        Due::Item => (code.map_or(Reading::Unreadable, item), Due::Nothing),
        Due::Count => (message_word(code), words_due(code.unwrap_or(255).into())),
        Due::Message(words) => (message_word(code), words_due(words - 1)),
    };
    (reading, next, mode)
}

fn item(code: u8) -> Reading {
    match codes::attribute(code) {
        ESCAPE => Reading::ForbiddenItem(code),
        _ => Reading::Item(code),
    }
}

fn message_word(code: Option<u8>) -> Reading {
    code.map_or(Reading::Unreadable, Reading::MessageWord)
}

fn words_due(words: u16) -> Due {
    match words {
        0 => Due::Nothing,
        _ => Due::Message(words),
    }
}

fn take_plain(mode: Mode, code: Option<u8>) -> (Reading, Due, Mode) {
    let Some(code) = code else {
        return (Reading::Unreadable, Due::Nothing, mode);
    };
    match (codes::attribute(code), codes::value(code)) {
        (ESCAPE, 0..=23) => (Reading::Mended(code), Due::Item, mode),
        (ESCAPE, 25..=31) => (Reading::Mended(code), Due::Count, mode),
        (0b000..=0b011, _) if !codes::carried(code) => (Reading::NotFollowed(code), Due::Nothing, mode),
        _ => (Reading::Mended(code), Due::Nothing, followed(mode, code)),
    }
}

/// The mode after a carried code. The stream that a new one overlaps goes off whole (R16).
fn followed(mode: Mode, code: u8) -> Mode {
    let value = codes::value(code);
    match (codes::attribute(code), value) {
        (AUDIO, NEUTRAL) => Mode::OFF,
        (AUDIO, _) if codes::overlap(value, mode.data) => Mode { audio: value, data: DATA_OFF },
        (AUDIO, _) => Mode { audio: value, ..mode },
        (DATA, _) if codes::overlap(mode.audio, value) => Mode { audio: AUDIO_OFF, data: value },
        (DATA, _) => Mode { data: value, ..mode },
        _ => mode,
    }
}

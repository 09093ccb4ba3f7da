//! How each thing looks, and what the legend calls it.

use delampuk::{Standing, Verdict};

use super::seen::Kind;

/// The rows of a track, from top to bottom.
#[derive(Clone, Copy, Debug, PartialEq, Eq, PartialOrd, Ord)]
pub enum Row {
    /// Whether mute is set.
    Mute,
    /// The code that was offered, where there is room for it.
    Offered,
    /// What the places of the voice have.
    Microphone,
    /// The BAS word.
    Word,
    /// The audio in force.
    Audio,
    /// The data in force.
    Data,
    /// What the CRC says of the block before.
    Crc,
    /// How the block was taken.
    State,
}

impl Row {
    /// What stands before the row.
    pub fn name(self) -> &'static str {
        match self {
            Row::Mute => "mute",
            Row::Offered => "offered",
            Row::Microphone => "microphone",
            Row::Word => "word",
            Row::Audio => "audio, bits",
            Row::Data => "data, value",
            Row::Crc => "CRC, block before",
            Row::State => "state",
        }
    }
}

/// A look that the legend explains.
#[derive(Clone, Copy, Debug, PartialEq, Eq, PartialOrd, Ord)]
pub struct Look {
    /// The row that has it.
    pub row: Row,
    /// Its class in the picture's style; empty for a thin line.
    pub class: &'static str,
    /// What the legend calls it.
    pub name: &'static str,
    /// What stands in it where there is room for that much.
    pub label: &'static str,
    /// What stands in it where there is room for a letter.
    pub letter: &'static str,
}

const fn look(row: Row, class: &'static str, name: &'static str) -> Look {
    Look { row, class, name, label: "", letter: "" }
}

/// A mute key that is pressed.
pub fn mute(pressed: bool) -> Look {
    match pressed {
        true => Look { label: "muted", letter: "M", ..look(Row::Mute, "muted", "pressed") },
        false => look(Row::Mute, "", "not pressed"),
    }
}

/// An offered code.
pub fn offered(held: bool) -> Look {
    match held {
        true => look(Row::Offered, "held", "held, to be offered again"),
        false => look(Row::Offered, "on", "sent"),
    }
}

/// The voice is carried; ones; neither: as a column counts them.
pub const MICROPHONE: [Look; 3] = [
    look(Row::Microphone, "carried", "carried"),
    look(Row::Microphone, "ones", "ones in its place"),
    look(Row::Microphone, "", "no audio in force, or nothing read"),
];

/// A word.
pub fn word(kind: Kind) -> Look {
    let (class, name) = match kind {
        Kind::NotRead => ("", "not read"),
        Kind::Idle => ("idle", "changes nothing"),
        Kind::Opener => ("opener", "says what comes next"),
        Kind::Message => ("message", "of a message"),
        Kind::Item => ("item", "item, no command"),
        Kind::Command => ("command", "command"),
        Kind::Own => ("own", "the sender's own command; the offered code is held"),
        Kind::Barred => ("barred", "forbidden item or command not followed"),
        Kind::Unreadable => ("unreadable", "unreadable"),
    };
    let letter = if kind == Kind::Unreadable { "×" } else { "" };
    Look { letter, ..look(Row::Word, class, name) }
}

/// The audio in force, which is a bar.
pub const AUDIO: Look = look(Row::Audio, "audio", "the higher, the more bits of each octet, 1 to 7");

/// Audio that only a part of a column's blocks has.
pub const AUDIO_SOME: Look = look(Row::Audio, "some", "in some blocks of a column");

/// The data in force, which is a bar.
pub const DATA: Look = look(Row::Data, "data", "the higher, the greater its value, 1 to 14");

/// Data that only a part of a column's blocks has.
pub const DATA_SOME: Look = look(Row::Data, "fewer", "in some blocks of a column");

/// A verdict.
pub fn verdict(verdict: Verdict) -> Look {
    match verdict {
        Verdict::None => look(Row::Crc, "", "no verdict"),
        Verdict::Good => Look { label: "good", ..look(Row::Crc, "good", "good") },
        Verdict::Bad => Look { label: "bad", letter: "×", ..look(Row::Crc, "bad", "bad") },
    }
}

/// A standing.
pub fn standing(standing: Standing) -> Look {
    match standing {
        Standing::Waiting => Look { label: "waiting", ..look(Row::State, "waiting", "waits for its place") },
        Standing::Read => Look { label: "read", ..look(Row::State, "read", "reads") },
        Standing::Lost => Look { label: "lost", letter: "×", ..look(Row::State, "lost", "lost alignment") },
    }
}

/// Whether what stands in a look is white.
pub fn is_dark(class: &str) -> bool {
    matches!(class, "muted" | "command" | "own" | "unreadable" | "bad" | "lost")
}

/// Whether what stands in a look needs a white rim.
pub fn is_hatched(class: &str) -> bool {
    matches!(class, "item" | "message" | "barred" | "waiting")
}

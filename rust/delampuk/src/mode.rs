//! What is in force, and which word is due.

use delampuk_sys::{DUE_ITEM, DUE_LENGTH, DUE_MESSAGE, DUE_PLAIN};

use crate::ffi;
use crate::refusal::unknown;

/// What cuts a block: an audio value of (000), 31 being off, and a data value of (011), 0 being off.
#[derive(Clone, Copy, Debug, PartialEq, Eq, Hash)]
pub struct Mode {
    /// The audio value.
    pub audio: u8,
    /// The data value.
    pub lsd: u8,
}

/// How much of the streams' buffers counts in a block.
#[derive(Clone, Copy, Debug, PartialEq, Eq, Hash)]
pub struct Counts {
    /// So many octets of the voice, 20 for each bit that the audio holds in an octet of the line.
    pub voice_octets: usize,
    /// So many bits of the data.
    pub lsd_bits: usize,
}

impl Mode {
    /// How much of the streams counts in a block that is cut by this mode; nothing of one whose value is not listed.
    pub fn counts(self) -> Counts {
        let counts = ffi::count(ffi::Mode { audio: self.audio, lsd: self.lsd });
        Counts { voice_octets: counts.voice.into(), lsd_bits: counts.lsd.into() }
    }

    pub(crate) fn from_state(mode: ffi::Mode) -> Mode {
        Mode { audio: mode.audio, lsd: mode.lsd }
    }
}

/// What the next BAS word is taken for.
#[derive(Clone, Copy, Debug, PartialEq, Eq, Hash)]
pub enum Due {
    /// A plain word, which can be a command.
    Plain,
    /// The item that an escape has asked for.
    Item,
    /// The length of a message.
    Length,
    /// A word of a message, of which so many are left.
    Message(u8),
}

impl Due {
    pub(crate) fn from_numbers(due: u8, words: u8) -> Due {
        match due {
            DUE_PLAIN => Due::Plain,
            DUE_ITEM => Due::Item,
            DUE_LENGTH => Due::Length,
            DUE_MESSAGE => Due::Message(words),
            number => unknown("word that is due", number),
        }
    }
}

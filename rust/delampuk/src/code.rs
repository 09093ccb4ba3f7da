//! What a code is.

use std::fmt;
use std::ops::RangeInclusive;

use delampuk_sys::{CODE_AUDIO, CODE_ESCAPE, CODE_LSD, CODE_MESSAGE, CODE_NEUTRAL, CODE_OTHER};

use crate::ffi;
use crate::refusal::unknown;

/// The bits of each frame that a stream holds. A range from a number to a smaller one is empty.
#[derive(Clone, Debug, PartialEq, Eq, Hash)]
pub struct Places {
    /// The bits that it holds in every octet, of bits 1 to 7.
    pub bits: RangeInclusive<u8>,
    /// The octets, of 17 to 80, in which it holds bit 8.
    pub service_octets: RangeInclusive<u8>,
}

/// What a code says as a plain word.
#[derive(Clone, Debug, PartialEq, Eq, Hash)]
pub enum CodeKind {
    /// (000)\[0\]: audio and data off.
    Neutral,
    /// An audio command, and what the voice holds under it; nothing where it is "audio off".
    Audio(Places),
    /// A data command, and what the data holds under it; nothing where it is "data off".
    Lsd(Places),
    /// The next word is an item.
    Escape,
    /// The next word is the length of a message, and the message follows.
    Message,
    /// Nothing that changes how blocks are cut or words are taken.
    Other,
}

/// What a code is.
pub fn explain(code: u8) -> CodeKind {
    let told = ffi::explain(code);
    let places = Places { bits: told.first_bit..=told.last_bit, service_octets: told.first_sc..=told.last_sc };
    match told.kind {
        CODE_NEUTRAL => CodeKind::Neutral,
        CODE_AUDIO => CodeKind::Audio(places),
        CODE_LSD => CodeKind::Lsd(places),
        CODE_ESCAPE => CodeKind::Escape,
        CODE_MESSAGE => CodeKind::Message,
        CODE_OTHER => CodeKind::Other,
        number => unknown("code", number),
    }
}

/// Whether a sender carries a code as a plain word. As an item it carries every code but those of attribute 111.
pub fn is_carried(code: u8) -> bool {
    ffi::explain(code).carried != 0
}

/// A code as Debug shows it, in hex.
pub(crate) struct Hex(pub u8);

impl fmt::Debug for Hex {
    fn fmt(&self, out: &mut fmt::Formatter) -> fmt::Result {
        write!(out, "{:#04X}", self.0)
    }
}

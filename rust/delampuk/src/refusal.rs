//! Why a call is refused.

use std::error::Error;
use std::fmt;

use delampuk_sys::{
    REFUSAL_ITEM, REFUSAL_LINE, REFUSAL_LSD, REFUSAL_MUTED, REFUSAL_NOT_CARRIED, REFUSAL_NO_PLACE, REFUSAL_OVERLAP,
    REFUSAL_PRESET, REFUSAL_RECORDING, REFUSAL_STATE, REFUSAL_VOICE,
};

/// Why a call is refused. It has changed nothing then: neither the state nor any octet that it was lent.
///
/// Where several reasons hold, the one with the smallest number is given.
#[derive(Clone, Copy, Debug, PartialEq, Eq, PartialOrd, Ord, Hash)]
#[repr(u8)]
pub enum Refusal {
    /// 1: the state is out of range, as only one that was loaded can be.
    BadState = REFUSAL_STATE,
    /// 2: the line block is not [`LINE`](crate::LINE) octets.
    LineLength = REFUSAL_LINE,
    /// 3: the voice buffer is not [`VOICE`](crate::VOICE) octets.
    VoiceLength = REFUSAL_VOICE,
    /// 4: the data buffer is not [`LSD`](crate::LSD) octets.
    LsdLength = REFUSAL_LSD,
    /// 5: the offered code is not carried as a plain word.
    NotCarried = REFUSAL_NOT_CARRIED,
    /// 6: an item is due, and the offered code has attribute 111.
    ForbiddenItem = REFUSAL_ITEM,
    /// 7: an audio command is offered while mute is set.
    AudioWhileMuted = REFUSAL_MUTED,
    /// 8: audio and data would hold the same bits.
    Overlap = REFUSAL_OVERLAP,
    /// 9: the recording is longer than [`RECORDING_MAX`](crate::RECORDING_MAX), or a search has fewer than 168 octets
    /// before it, or a walk stands past the end.
    Recording = REFUSAL_RECORDING,
    /// 10: alignment stands nowhere from the start of the search on.
    NoPlace = REFUSAL_NO_PLACE,
    /// 11: the sixteen bits are no preset.
    NotAPreset = REFUSAL_PRESET,
}

const ALL: [Refusal; 11] = [
    Refusal::BadState,
    Refusal::LineLength,
    Refusal::VoiceLength,
    Refusal::LsdLength,
    Refusal::NotCarried,
    Refusal::ForbiddenItem,
    Refusal::AudioWhileMuted,
    Refusal::Overlap,
    Refusal::Recording,
    Refusal::NoPlace,
    Refusal::NotAPreset,
];

impl Refusal {
    /// The number by which the library, its header in C and its listings name this refusal.
    pub fn number(self) -> u8 {
        self as u8
    }

    /// The refusal that the library's number names, 0 being none.
    pub(crate) fn unless_zero(number: u8) -> Result<(), Refusal> {
        match ALL.into_iter().find(|refusal| refusal.number() == number) {
            Some(refusal) => Err(refusal),
            None if number == 0 => Ok(()),
            None => unknown("refusal", number),
        }
    }
}

/// Ends the program: the archive that was linked is not the one that the header describes.
pub(crate) fn unknown(what: &str, number: u8) -> ! {
    panic!("the linked library answers a {what} of number {number}, which include/delampuk.h does not have")
}

impl fmt::Display for Refusal {
    fn fmt(&self, out: &mut fmt::Formatter) -> fmt::Result {
        let reason = match self {
            Refusal::BadState => "the state is out of range",
            Refusal::LineLength => "the line block is not 160 octets",
            Refusal::VoiceLength => "the voice buffer is not 140 octets",
            Refusal::LsdLength => "the data buffer is not 156 octets",
            Refusal::NotCarried => "the offered code is not carried as a plain word",
            Refusal::ForbiddenItem => "an item is due, and the offered code has attribute 111",
            Refusal::AudioWhileMuted => "an audio command is offered while mute is set",
            Refusal::Overlap => "audio and data would hold the same bits",
            Refusal::Recording => "the recording is too long or too short, or the place is past its end",
            Refusal::NoPlace => "no alignment is found",
            Refusal::NotAPreset => "the sixteen bits are no preset",
        };
        write!(out, "refused {}: {reason}", self.number())
    }
}

impl Error for Refusal {}

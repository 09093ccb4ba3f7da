//! Refusal numbers (01, "Refusal numbers").

/// Why a call was refused. Nothing that was lent has changed then (G1).
#[derive(Clone, Copy, Debug, PartialEq, Eq, PartialOrd, Ord)]
pub enum Refusal {
    /// 1: a sender's or reader's state out of range.
    State = 1,
    /// 2: a line block of other than 160 octets.
    LineLength = 2,
    /// 3: a voice buffer of other than 140 octets.
    VoiceLength = 3,
    /// 4: a data buffer of other than 156 octets.
    DataLength = 4,
    /// 5: a plain code that is not carried.
    NotCarried = 5,
    /// 6: an item of attribute 111.
    ForbiddenItem = 6,
    /// 7: an audio command while mute is set.
    AudioWhileMuted = 7,
    /// 8: a command that overlaps the other stream.
    Overlap = 8,
    /// 9: a recording too long or too short, or a place past its end.
    Recording = 9,
    /// 10: no place with alignment.
    NoPlace = 10,
    /// 11: not a preset.
    Preset = 11,
}

impl Refusal {
    /// The number of the row in 01.
    pub fn number(self) -> u8 {
        self as u8
    }
}

/// `Err(refusal)` exactly where `given` holds; rows are asked in the order of their numbers.
pub(crate) fn when(given: bool, refusal: Refusal) -> Result<(), Refusal> {
    if given {
        Err(refusal)
    } else {
        Ok(())
    }
}

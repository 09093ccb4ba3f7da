//! What every contestant takes and gives: the structs of `include/delampuk.h`, and the values of them that contestants in Rust make.

use delampuk_sys::{
    DUE_ITEM, DUE_LENGTH, DUE_MESSAGE, DUE_PLAIN, READ_BLOCK, READ_REFUSED, SEND_HELD, SEND_REFUSED, SEND_SENT,
    STANDING_WAITING, VERDICT_NONE, WORD_NOT_READ,
};

pub use delampuk_sys::{
    BlockAnswer, Mode, ReadAnswer, Reader, SearchAnswer, SendAnswer, Sender, Slot, OCTETS_LINE as LINE,
    OCTETS_LISTING as LISTING, OCTETS_LSD as LSD, OCTETS_RECORDING as RECORDING_MAX, OCTETS_VOICE as VOICE,
};

/// A sending call's inputs, besides the state and the line block.
#[derive(Clone, Copy, Debug)]
pub struct Offer<'a> {
    /// Whether the microphone is off.
    pub mute: bool,
    /// The offered code.
    pub code: u8,
    /// A, E and T.
    pub flags: [bool; 3],
    /// The voice buffer.
    pub voice: &'a [u8],
    /// The data buffer.
    pub lsd: &'a [u8],
}

/// Audio and data off.
pub const ALL_OFF: Mode = Mode { audio: 31, lsd: 0 };

/// The code went out.
pub const SENT: SendAnswer = SendAnswer { kind: SEND_SENT, number: 0 };

/// A word of the library's own went in its place.
pub const HELD: SendAnswer = SendAnswer { kind: SEND_HELD, number: 0 };

/// A sending call refused with a number.
pub const fn send_refused(number: u8) -> SendAnswer {
    SendAnswer { kind: SEND_REFUSED, number }
}

/// A plain word is due.
pub const PLAIN_DUE: Slot = Slot { kind: DUE_PLAIN, words: 0 };

/// An item is due.
pub const ITEM_DUE: Slot = Slot { kind: DUE_ITEM, words: 0 };

/// The length of a message is due.
pub const LENGTH_DUE: Slot = Slot { kind: DUE_LENGTH, words: 0 };

/// So many words of a message are due.
pub const fn words_due(words: u8) -> Slot {
    match words {
        0 => PLAIN_DUE,
        _ => Slot { kind: DUE_MESSAGE, words },
    }
}

/// A reader that is fresh but for the mode.
pub const fn fresh_with(mode: Mode) -> Reader {
    Reader {
        mode,
        kept: mode,
        wrong: 0,
        block: 0,
        firsts: 0b11_1111,
        misses: 0,
        slot: PLAIN_DUE,
        before: 0,
        remainder: 0,
    }
}

/// The block's answer where there is no block to speak of.
pub const NO_BLOCK: BlockAnswer =
    BlockAnswer { standing: STANDING_WAITING, verdict: VERDICT_NONE, reading: WORD_NOT_READ, code: 0 };

/// A block that was taken.
pub const fn block(block: BlockAnswer) -> ReadAnswer {
    ReadAnswer { kind: READ_BLOCK, number: 0, block }
}

/// A reading call refused with a number.
pub const fn read_refused(number: u8) -> ReadAnswer {
    ReadAnswer { kind: READ_REFUSED, number, block: NO_BLOCK }
}

/// What a search answers: a place, or a refusal's number.
pub fn search_answer(found: Result<usize, u8>) -> SearchAnswer {
    let (place, number) = match found {
        Ok(place) => (place, 0),
        Err(number) => (0, number),
    };
    SearchAnswer { place, number, reserved: [0; 7] }
}

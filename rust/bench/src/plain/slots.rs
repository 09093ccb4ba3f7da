//! What a BAS word means in its slot (01, "Slots").

use super::codes::{self, AUDIO, DATA, ESCAPE};
use crate::forms::{self, Mode, Slot};

/// A word's reading, what is due next, and the mode after it.
pub struct Taken {
    pub reading: u8,
    pub slot: Slot,
    pub mode: Mode,
}

const MENDED: u8 = 0;
const ITEM: u8 = 1;
const MESSAGE_WORD: u8 = 2;
const FORBIDDEN: u8 = 3;
const NOT_FOLLOWED: u8 = 4;
const UNREADABLE: u8 = 5;

/// The one form of a slot that a block leaves.
pub fn tidy(slot: Slot) -> Slot {
    match slot.kind {
        0..=2 => Slot { words: 0, ..slot },
        _ => forms::words_due(slot.words),
    }
}

/// Takes one word.
pub fn take(slot: Slot, mode: Mode, code: Option<u8>) -> Taken {
    let slot = tidy(slot);
    let (reading, slot) = match (slot.kind, code) {
        (0, Some(code)) => return take_plain(mode, code),
        (0 | 1, None) => (UNREADABLE, forms::PLAIN_DUE),
        (1, Some(code)) if codes::attribute(code) == ESCAPE => (FORBIDDEN, forms::PLAIN_DUE),
        (1, Some(_)) => (ITEM, forms::PLAIN_DUE),
        (2, None) => (UNREADABLE, forms::words_due(255)),
        (2, Some(words)) => (MESSAGE_WORD, forms::words_due(words)),
        (_, None) => (UNREADABLE, forms::words_due(slot.words - 1)),
        (_, Some(_)) => (MESSAGE_WORD, forms::words_due(slot.words - 1)),
    };
    Taken { reading, slot, mode }
}

fn take_plain(mode: Mode, code: u8) -> Taken {
    let taken = |reading, slot, mode| Taken { reading, slot, mode };
    match (codes::attribute(code), codes::value(code)) {
        (ESCAPE, 0..=23) => taken(MENDED, forms::ITEM_DUE, mode),
        (ESCAPE, 25..=31) => taken(MENDED, forms::LENGTH_DUE, mode),
        (0b000..=0b011, _) if !codes::carried(code) => taken(NOT_FOLLOWED, forms::PLAIN_DUE, mode),
        _ => taken(MENDED, forms::PLAIN_DUE, followed(mode, code)),
    }
}

fn followed(mode: Mode, code: u8) -> Mode {
    let value = codes::value(code);
    match codes::attribute(code) {
        AUDIO if value == 0 => forms::ALL_OFF,
        AUDIO => {
            let next = Mode { audio: value, ..mode };
            if codes::overlap(next) {
                Mode { lsd: 0, ..next }
            } else {
                next
            }
        }
        DATA => {
            let next = Mode { lsd: value, ..mode };
            if codes::overlap(next) {
                Mode { audio: 31, ..next }
            } else {
                next
            }
        }
        _ => mode,
    }
}

//! The search for alignment (01, "Finding alignment").

use crate::forms::{LINE, RECORDING_MAX};

const WORD: u8 = 0b001_1011;
/// The octets that a search must see from a place on.
const SEEN: usize = LINE + 8;

/// The smallest place from `start` on, or the refusal's number.
pub fn search(recording: &[u8], start: usize) -> Result<usize, u8> {
    if recording.len() > RECORDING_MAX || recording.len().saturating_sub(start) < SEEN {
        return Err(9);
    }
    let part = &recording[start..];
    let mut window = word_from(part, 0);
    let last = part.len() - SEEN;
    for (place, next) in part[7..].iter().take(last + 1).enumerate() {
        window = (window << 1 | next & 1) & 0x7F;
        if window == WORD && part[place + 81] & 1 == 1 && word_from(part, place + 161) == WORD {
            return Ok(start + place);
        }
    }
    Err(10)
}

/// The seven SC bits from a place on.
fn word_from(part: &[u8], place: usize) -> u8 {
    part[place..place + 7].iter().fold(0, |sum, octet| sum << 1 | octet & 1)
}

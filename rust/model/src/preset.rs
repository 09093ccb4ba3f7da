//! Presets (01, "Preset").

use crate::codes::{self, Mode, DATA};
use crate::refusal::{when, Refusal};
use crate::sender::SenderState;

/// Reads sixteen bits: a fresh state with the chosen audio, and the data code to offer.
pub fn read(bits: u16) -> Result<(SenderState, u8), Refusal> {
    let mode = Mode { audio: (bits >> 11) as u8, data: (bits >> 6 & 0b11111) as u8 };
    let zeros = bits & 0b11_1111;
    when(!mode.in_range() || zeros != 0, Refusal::Preset)?;
    let state = SenderState { chosen: mode.audio, ..SenderState::FRESH };
    Ok((state, codes::code(DATA, mode.data)))
}

/// Reads a preset from a buffer; only one of two octets can be a preset (P1).
pub fn read_octets(octets: &[u8]) -> Result<(SenderState, u8), Refusal> {
    match *octets {
        [high, low] => read(u16::from_be_bytes([high, low])),
        _ => Err(Refusal::Preset),
    }
}

/// Writes the chosen audio and the data in force.
pub fn write(state: &SenderState) -> Result<u16, Refusal> {
    when(!state.in_range(), Refusal::State)?;
    Ok(u16::from(state.chosen) << 11 | u16::from(state.data) << 6)
}

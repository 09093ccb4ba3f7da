//! Codes and the bit places that they hold (01, "Codes and bit places").

use crate::forms::Mode;

pub const AUDIO: u8 = 0b000;
pub const DATA: u8 = 0b011;
pub const ESCAPE: u8 = 0b111;

const NONE: u8 = 0xFF;

/// Voice bits of an octet by audio value.
const WIDTHS: [u8; 32] = {
    let mut widths = [NONE; 32];
    widths[11] = 1;
    widths[29] = 2;
    widths[28] = 3;
    widths[27] = 4;
    widths[20] = 6;
    widths[21] = 6;
    widths[25] = 6;
    widths[18] = 7;
    widths[19] = 7;
    widths[24] = 7;
    widths[31] = 0;
    widths
};

/// Data places by data value: how many of the bits up to 7, and the first and last octet of the SC.
const DATA_PLACES: [(u8, u8, u8); 15] = [
    (0, 1, 0),
    (0, 38, 40),
    (0, 29, 40),
    (0, 33, 80),
    (0, 17, 80),
    (1, 1, 0),
    (1, 25, 40),
    (1, 17, 80),
    (2, 1, 0),
    (3, 1, 0),
    (4, 1, 0),
    (5, 1, 0),
    (6, 1, 0),
    (7, 1, 0),
    (7, 17, 80),
];

/// How a mode cuts an octet.
#[derive(Clone, Copy)]
pub struct Layout {
    pub voice_bits: u32,
    pub data_bits: u32,
    /// The octets, from 0, whose bit 8 is data.
    pub first: usize,
    pub end: usize,
}

/// The layout of a mode in range.
pub fn layout(mode: Mode) -> Layout {
    let (data_bits, first, last) = DATA_PLACES[usize::from(mode.lsd)];
    Layout {
        voice_bits: WIDTHS[usize::from(mode.audio)].into(),
        data_bits: data_bits.into(),
        first: usize::from(first) - 1,
        end: last.into(),
    }
}

pub fn attribute(code: u8) -> u8 {
    code >> 5
}

pub fn value(code: u8) -> u8 {
    code & 0b11111
}

fn held_audio(audio: u8) -> bool {
    WIDTHS.get(usize::from(audio)).is_some_and(|&width| width != NONE)
}

fn listed_data(data: u8) -> bool {
    usize::from(data) < DATA_PLACES.len()
}

/// Whether two listed values hold a place in common: voice holds the first bits of seven, data the last ones.
pub fn overlap(mode: Mode) -> bool {
    mode.audio != 0 && WIDTHS[usize::from(mode.audio)] + DATA_PLACES[usize::from(mode.lsd)].0 > 7
}

/// Whether a state may hold this mode.
pub fn in_range(mode: Mode) -> bool {
    held_audio(mode.audio) && listed_data(mode.lsd) && !overlap(mode)
}

/// Whether a plain word may carry this code.
pub fn carried(code: u8) -> bool {
    let value = value(code);
    match attribute(code) {
        AUDIO => value == 0 || held_audio(value),
        0b001 => value == 0,
        DATA => listed_data(value),
        0b100..=0b110 => true,
        ESCAPE => matches!(value, 15..=20 | 24),
        _ => false,
    }
}

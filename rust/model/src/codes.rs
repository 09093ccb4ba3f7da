//! Codes, their attribute and value, and the bit places that they hold
//! (01, "Codes and bit places"; the carried list stands in "Sending a block").

/// The value of (000) that means audio off.
pub const AUDIO_OFF: u8 = 31;
/// The value of (000) that turns audio and data off; no state holds it.
pub const NEUTRAL: u8 = 0;
/// The value of (011) that means data off.
pub const DATA_OFF: u8 = 0;

/// Attribute 000.
pub const AUDIO: u8 = 0b000;
/// Attribute 011.
pub const DATA: u8 = 0b011;
/// Attribute 111.
pub const ESCAPE: u8 = 0b111;

/// The values of audio and data that cut a block. Any value can stand here, listed or not.
#[derive(Clone, Copy, Debug, PartialEq, Eq)]
pub struct Mode {
    /// Value of (000).
    pub audio: u8,
    /// Value of (011).
    pub data: u8,
}

impl Mode {
    /// Audio and data off.
    pub const OFF: Mode = Mode { audio: AUDIO_OFF, data: DATA_OFF };

    /// Whether a state may hold this mode.
    pub fn in_range(self) -> bool {
        held_audio(self.audio) && listed_data(self.data) && !overlap(self.audio, self.data)
    }

    /// How many octets of a voice buffer count: 20w.
    pub fn voice_octets(self) -> usize {
        20 * width(self.audio).unwrap_or(0)
    }

    /// How many bits of a data buffer count: twice the bits per frame.
    pub fn data_bits(self) -> usize {
        let of_octet = |octet| (1..=8).filter(|&bit| data_holds(self.data, octet, bit)).count();
        2 * (1..=80).map(of_octet).sum::<usize>()
    }
}

/// What a code is as a plain word.
#[derive(Clone, Copy, Debug, PartialEq, Eq)]
pub enum Kind {
    /// (000)[0].
    Neutral,
    /// A listed value of (000) but [0].
    Audio,
    /// A listed value of (011).
    Data,
    /// It makes the next word an item.
    Escape,
    /// It opens a message.
    Message,
    /// None of these.
    Other,
}

/// b0 b1 b2 of a code.
pub fn attribute(code: u8) -> u8 {
    code >> 5
}

/// b3 to b7 of a code.
pub fn value(code: u8) -> u8 {
    code & 0b11111
}

/// The code (attribute)[value].
pub fn code(attribute: u8, value: u8) -> u8 {
    (attribute << 5) | value
}

/// The number w of bits of each octet that an audio value holds: 0 for off, none for [0] and unlisted values.
pub fn width(audio: u8) -> Option<usize> {
    match audio {
        11 => Some(1),
        29 => Some(2),
        28 => Some(3),
        27 => Some(4),
        20 | 21 | 25 => Some(6),
        18 | 19 | 24 => Some(7),
        AUDIO_OFF => Some(0),
        _ => None,
    }
}

/// Whether a state may hold this audio value: listed, and not [0].
pub fn held_audio(audio: u8) -> bool {
    width(audio).is_some()
}

/// Whether 01 lists this data value.
pub fn listed_data(data: u8) -> bool {
    data <= 14
}

/// Whether an audio value holds bit 1 to 8 of an octet; it is the same in every octet.
pub fn voice_holds(audio: u8, bit: usize) -> bool {
    bit <= width(audio).unwrap_or(0)
}

/// Whether a data value holds bit 1 to 8 of octet 1 to 80 of each frame.
pub fn data_holds(data: u8, octet: usize, bit: usize) -> bool {
    let service_channel = |first, last| bit == 8 && (first..=last).contains(&octet);
    let bits_up_to_7 = |first| (first..=7).contains(&bit);
    match data {
        1 => service_channel(38, 40),
        2 => service_channel(29, 40),
        3 => service_channel(33, 80),
        4 => service_channel(17, 80),
        5 => bits_up_to_7(7),
        6 => bits_up_to_7(7) || service_channel(25, 40),
        7 => bits_up_to_7(7) || service_channel(17, 80),
        8 => bits_up_to_7(6),
        9 => bits_up_to_7(5),
        10 => bits_up_to_7(4),
        11 => bits_up_to_7(3),
        12 => bits_up_to_7(2),
        13 => bits_up_to_7(1),
        14 => bits_up_to_7(1) || service_channel(17, 80),
        _ => false,
    }
}

/// What a code is.
pub fn kind(code: u8) -> Kind {
    match (attribute(code), value(code)) {
        (AUDIO, NEUTRAL) => Kind::Neutral,
        (AUDIO, value) if held_audio(value) => Kind::Audio,
        (DATA, value) if listed_data(value) => Kind::Data,
        (ESCAPE, 0..=23) => Kind::Escape,
        (ESCAPE, 25..=31) => Kind::Message,
        _ => Kind::Other,
    }
}

/// Whether a code's stream holds bit 1 to 8 of octet 1 to 80 of each frame.
fn holds(code: u8, octet: usize, bit: usize) -> bool {
    match kind(code) {
        Kind::Audio => voice_holds(value(code), bit),
        Kind::Data => data_holds(value(code), octet, bit),
        _ => false,
    }
}

/// Those of bits 1 to 7 that a code's stream holds in every octet.
pub fn octet_bits(code: u8) -> Vec<usize> {
    (1..=7).filter(|&bit| (1..=80).all(|octet| holds(code, octet, bit))).collect()
}

/// The octets whose bit 8 a code's stream holds.
pub fn service_octets(code: u8) -> Vec<usize> {
    (1..=80).filter(|&octet| holds(code, octet, 8)).collect()
}

/// Whether an audio and a data value hold some place in common.
pub fn overlap(audio: u8, data: u8) -> bool {
    (1..=80).any(|octet| (1..=8).any(|bit| voice_holds(audio, bit) && data_holds(data, octet, bit)))
}

/// Whether a plain word may carry this code.
pub fn carried(code: u8) -> bool {
    let value = value(code);
    match attribute(code) {
        AUDIO => value == NEUTRAL || held_audio(value),
        0b001 => value == 0,
        DATA => listed_data(value),
        0b100..=0b110 => true,
        ESCAPE => matches!(value, 15..=20 | 24),
        _ => false,
    }
}

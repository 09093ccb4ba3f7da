//! Service bits 1 to 8 of each frame (01, "Service bits 1 to 8 of each frame").

use crate::frame::Half;

/// The first bits of the odd frames 1 to 11, by which a reader finds the multiframe.
pub const MULTIFRAME_PATTERN: [bool; 6] = [false, false, true, false, true, true];

/// A, E and T, inputs of each sending call.
#[derive(Clone, Copy, Debug, Default, PartialEq, Eq)]
pub struct Flags {
    /// Bit 3 of odd frames.
    pub a: bool,
    /// Bit 4 of odd frames.
    pub e: bool,
    /// Bit 1 of frame 14, the terminal alarm.
    pub t: bool,
}

/// The fixed value of service bit `number` where it belongs to the alignment word.
pub fn alignment_bit(half: Half, number: usize) -> Option<bool> {
    match (half, number) {
        (Half::Even, 2 | 3 | 6) => Some(false),
        (Half::Even, 4 | 5 | 7 | 8) => Some(true),
        (Half::Odd, 2) => Some(true),
        _ => None,
    }
}

/// The eight bits of the alignment word: which frame, which service bit, which value.
pub fn alignment_word() -> impl Iterator<Item = (Half, usize, bool)> {
    [Half::Even, Half::Odd].into_iter().flat_map(|half| {
        (1..=8).filter_map(move |number| alignment_bit(half, number).map(|value| (half, number, value)))
    })
}

/// Service bit 1 of frame 0 to 15.
fn first_bit(frame: usize, t: bool) -> bool {
    match frame {
        1 | 3 | 5 | 7 | 9 | 11 => MULTIFRAME_PATTERN[frame / 2],
        10 => true, // the low bit of channel number 1
        14 => t,
        _ => false,
    }
}

/// Service bit 1 to 8 of frame 0 to 15. Of the remainder the low four bits count (G3).
pub fn bit(frame: usize, number: usize, flags: Flags, remainder: u8) -> bool {
    let half = match frame % 2 {
        0 => Half::Even,
        _ => Half::Odd,
    };
    if let Some(value) = alignment_bit(half, number) {
        return value;
    }
    match number {
        1 => first_bit(frame, flags.t),
        3 => flags.a,
        4 => flags.e,
        c_bit => remainder >> (8 - c_bit) & 1 == 1,
    }
}

/// The sixteen rows of eight service bits.
pub fn rows(flags: Flags, remainder: u8) -> [[bool; 8]; 16] {
    std::array::from_fn(|frame| std::array::from_fn(|index| bit(frame, index + 1, flags, remainder)))
}

//! Octets, frames and blocks, and the owner of each bit place
//! (01, "What the unit carries" and "Codes and bit places").
//!
//! A block is kept as its 1,280 bits in sending order.

use crate::bits;
use crate::codes::{self, Mode};

/// Octets of a block.
pub const BLOCK_OCTETS: usize = 160;
/// Octets of a voice buffer.
pub const VOICE_OCTETS: usize = 140;
/// Octets of a data buffer.
pub const DATA_OCTETS: usize = 156;

/// The two frames of a block.
#[derive(Clone, Copy, Debug, PartialEq, Eq)]
pub enum Half {
    /// The first 80 octets.
    Even,
    /// The second 80 octets.
    Odd,
}

/// One bit of a block: octet 1 to 80 of a frame, bit 1 to 8 of the octet.
#[derive(Clone, Copy, Debug, PartialEq, Eq)]
pub struct Place {
    /// Which frame of the block.
    pub half: Half,
    /// Octet number in the frame, from 1.
    pub octet: usize,
    /// Bit number in the octet, from 1.
    pub bit: usize,
}

/// Who decides a bit.
#[derive(Clone, Copy, Debug, PartialEq, Eq)]
pub enum Owner {
    /// Service bit 1 to 8 of the frame.
    Service(usize),
    /// Bit 9 to 16 of the service channel: the BAS word.
    Bas(usize),
    /// The voice stream.
    Voice,
    /// The data stream.
    Data,
    /// Nobody: sent as 1.
    Nobody,
}

/// The owner of a bit place under a mode; both frames of a block are cut alike.
pub fn owner(mode: Mode, octet: usize, bit: usize) -> Owner {
    match (octet, bit) {
        (1..=8, 8) => Owner::Service(octet),
        (9..=16, 8) => Owner::Bas(octet),
        _ if codes::voice_holds(mode.audio, bit) => Owner::Voice,
        _ if codes::data_holds(mode.data, octet, bit) => Owner::Data,
        _ => Owner::Nobody,
    }
}

/// All places of a block in sending order.
pub fn places() -> impl Iterator<Item = Place> {
    (0..8 * BLOCK_OCTETS).map(|index| Place {
        half: if index < 4 * BLOCK_OCTETS { Half::Even } else { Half::Odd },
        octet: index / 8 % 80 + 1,
        bit: index % 8 + 1,
    })
}

/// The 1,280 bits of a block.
#[derive(Clone, Debug, PartialEq, Eq)]
pub struct Block {
    bits: Vec<bool>,
}

impl Block {
    /// The block of 160 octets; the callers have judged the length, so any other one panics.
    pub fn from_octets(octets: &[u8]) -> Block {
        assert_eq!(octets.len(), BLOCK_OCTETS, "a block has 160 octets");
        Block { bits: bits::from_octets(octets) }
    }

    /// A block whose bits are asked for one by one in sending order.
    pub fn from_places(bit_at: impl FnMut(Place) -> bool) -> Block {
        Block { bits: places().map(bit_at).collect() }
    }

    /// The bit at a place.
    pub fn bit(&self, place: Place) -> bool {
        let octets_before = match place.half {
            Half::Even => place.octet - 1,
            Half::Odd => 80 + place.octet - 1,
        };
        self.bits[8 * octets_before + place.bit - 1]
    }

    /// Bit `number` (1 to 80) of the service channel of one frame.
    pub fn service_channel(&self, half: Half, number: usize) -> bool {
        self.bit(Place { half, octet: number, bit: 8 })
    }

    /// The block as 160 octets.
    pub fn octets(&self) -> Vec<u8> {
        bits::to_octets(&self.bits)
    }

    /// The bits that `wanted` owns under `mode`, packed into a buffer of `length` octets, its rest zero.
    pub fn stream(&self, mode: Mode, wanted: Owner, length: usize) -> Vec<u8> {
        let mut bits: Vec<bool> = places()
            .filter(|place| owner(mode, place.octet, place.bit) == wanted)
            .map(|place| self.bit(place))
            .collect();
        bits.resize(8 * length, false);
        bits::to_octets(&bits)
    }
}

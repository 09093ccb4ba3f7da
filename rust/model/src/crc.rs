//! The cyclic check of a block (01, "CRC-4").

use crate::bits;
use crate::codes::Mode;
use crate::fault::Fault;
use crate::frame::{self, Block, Half, Owner, Place};

/// X^4 + X + 1.
const GENERATOR: u32 = 0b1_0011;

/// The remainder of a block, C1 to C4 taken as 0.
pub fn crc4(block: &Block) -> u8 {
    crc4_with(Fault::None, block)
}

/// C1 to C4 as a block carries them, C1 highest.
pub fn carried_remainder(block: &Block) -> u8 {
    let c_bits: Vec<bool> = (5..=8).map(|number| block.service_channel(Half::Odd, number)).collect();
    bits::number(&c_bits) as u8
}

pub(crate) fn crc4_with(fault: Fault, block: &Block) -> u8 {
    let taken_as_0 = |place| is_c_bit(place) && fault != Fault::SumTakesCBits;
    let dividend: Vec<bool> = frame::places().map(|place| block.bit(place) && !taken_as_0(place)).collect();
    bits::remainder(&dividend, GENERATOR, 4) as u8
}

fn is_c_bit(place: Place) -> bool {
    // The mode is of no matter here: service bits belong to nobody else under any mode.
    let owner = frame::owner(Mode::OFF, place.octet, place.bit);
    place.half == Half::Odd && matches!(owner, Owner::Service(5..=8))
}

//! Voice as one sample an octet.

use delampuk::LINE;

/// The octets of a block's voice, packed, for each bit that it holds in an octet of the line.
const OCTETS_A_BIT: usize = LINE / 8;

/// The samples of a block: the bits of the voice in each octet of the line are the highest of an octet, and the others are
/// zero. Where the block holds no voice, they are ones, as they are on the line.
pub fn unpacked(voice: &[u8]) -> [u8; LINE] {
    let mut samples = [0xFF; LINE];
    let width = voice.len() / OCTETS_A_BIT;
    if width == 0 {
        return samples;
    }
    for (i, sample) in samples.iter_mut().enumerate() {
        *sample = (0..width).fold(0, |octet, bit| octet | bit_at(voice, i * width + bit) << (7 - bit));
    }
    samples
}

/// A bit of packed octets, most significant first.
fn bit_at(octets: &[u8], place: usize) -> u8 {
    octets[place / 8] >> (7 - place % 8) & 1
}

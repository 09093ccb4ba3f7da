//! Bits of octets, and long division of polynomials with coefficients 0 and 1
//! (01, "What the unit carries", "CRC-4" and "BAS words").

/// Bit 1 to 8 of an octet; bit 1 is the most significant.
pub fn bit(octet: u8, number: usize) -> bool {
    octet >> (8 - number) & 1 == 1
}

/// The bits of `octets` in sending order.
pub fn from_octets(octets: &[u8]) -> Vec<bool> {
    (0..8 * octets.len()).map(|index| bit(octets[index / 8], index % 8 + 1)).collect()
}

/// Bits packed into octets, most significant first; a last part of an octet is filled with zeros.
pub fn to_octets(bits: &[bool]) -> Vec<u8> {
    bits.chunks(8).map(|chunk| (number(chunk) << (8 - chunk.len())) as u8).collect()
}

/// A row of bits as a number, the first bit highest.
pub fn number(bits: &[bool]) -> u32 {
    bits.iter().fold(0, |sum, &bit| (sum << 1) | u32::from(bit))
}

/// The remainder of `dividend` times X^`degree` after division by `generator`.
///
/// The first bit of the dividend is its highest coefficient. The generator is written with its highest
/// term, X^`degree`, which is at most 30.
pub fn remainder(dividend: &[bool], generator: u32, degree: u32) -> u32 {
    let zeros = std::iter::repeat_n(false, degree as usize);
    let coefficients = dividend.iter().copied().chain(zeros);
    coefficients.fold(0, |rest, coefficient| {
        let rest = (rest << 1) | u32::from(coefficient);
        if rest >> degree == 1 {
            rest ^ generator
        } else {
            rest
        }
    })
}

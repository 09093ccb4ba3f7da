//! The CRC-4 of a block by a table of 256 (01, "CRC-4").

/// The octets, from 0, whose bit 8 is C1 to C4.
const C_BITS: std::ops::Range<usize> = 84..88;

/// The remainder of an octet, times X^4.
static REMAINDERS: [u8; 256] = {
    let mut remainders = [0; 256];
    let mut octet = 0;
    while octet < 256 {
        let mut rest = (octet as u16) << 4;
        let mut bit = 11;
        while bit >= 4 {
            if rest >> bit & 1 == 1 {
                rest ^= 0b1_0011 << (bit - 4);
            }
            bit -= 1;
        }
        remainders[octet] = rest as u8;
        octet += 1;
    }
    remainders
};

fn over(remainder: u8, octets: &[u8]) -> u8 {
    octets.iter().fold(remainder, |rest, &octet| REMAINDERS[usize::from(octet ^ rest << 4)])
}

/// The remainder of a block, C1 to C4 taken as 0.
pub fn of_block(line: &[u8]) -> u8 {
    let before = over(0, &line[..C_BITS.start]);
    let c_bits = line[C_BITS].iter().fold(before, |rest, &octet| over(rest, &[octet & 0xFE]));
    over(c_bits, &line[C_BITS.end..])
}

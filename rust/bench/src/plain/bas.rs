//! BAS words by tables (01, "BAS words").

const GENERATOR: u16 = 0b1_1101_0111;
const EVEN_ORDER: [u32; 8] = [0, 3, 2, 1, 5, 4, 6, 7];
const ODD_ORDER: [u32; 8] = [2, 1, 0, 4, 3, 5, 6, 7];
const UNREADABLE: u16 = 0xFFFF;

/// Check octets by code.
static CHECKS: [u8; 256] = {
    let mut checks = [0; 256];
    let mut code = 0;
    while code < 256 {
        checks[code] = check(code as u8);
        code += 1;
    }
    checks
};

/// An octet in the even frame's order, and back: the order is its own inverse.
static EVEN: [u8; 256] = reordered(EVEN_ORDER);
/// The same for the odd frame.
static ODD: [u8; 256] = reordered(ODD_ORDER);

/// The bits to flip by the remainder of a received word.
static FLIPS: [u16; 256] = {
    let mut flips = [UNREADABLE; 256];
    let mut first = 0;
    while first < 16 {
        let mut second = 0;
        while second < 16 {
            let (one, other) = (1 << first, 1 << second);
            flips[remainder(one) as usize] = one;
            // flipping a bit twice leaves the word as it is
            flips[remainder(one ^ other) as usize] = one ^ other;
            second += 1;
        }
        first += 1;
    }
    flips
};

const fn check(code: u8) -> u8 {
    let mut rest = (code as u32) << 8;
    let mut bit = 15;
    while bit >= 8 {
        if rest >> bit & 1 == 1 {
            rest ^= (GENERATOR as u32) << (bit - 8);
        }
        bit -= 1;
    }
    rest as u8
}

const fn remainder(word: u16) -> u8 {
    check((word >> 8) as u8) ^ word as u8
}

const fn reordered(order: [u32; 8]) -> [u8; 256] {
    let mut octets = [0; 256];
    let mut octet = 0;
    while octet < 256 {
        let mut index = 0;
        while index < 8 {
            let bit = (octet as u8) >> (7 - order[index]) & 1;
            octets[octet] |= bit << (7 - index);
            index += 1;
        }
        octet += 1;
    }
    octets
}

/// SC bits 9 to 16 of the even and of the odd frame.
pub fn sent(code: u8) -> [u8; 2] {
    [EVEN[usize::from(code)], ODD[usize::from(CHECKS[usize::from(code)])]]
}

/// The code of a word as it stands on the line.
pub fn read([even, odd]: [u8; 2]) -> Option<u8> {
    let (code, check) = (EVEN[usize::from(even)], ODD[usize::from(odd)]);
    let flip = FLIPS[usize::from(CHECKS[usize::from(code)] ^ check)];
    (flip != UNREADABLE).then_some(code ^ (flip >> 8) as u8)
}

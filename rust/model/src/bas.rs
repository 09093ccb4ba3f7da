//! BAS words: check octet, order on the line, reading (01, "BAS words").

use crate::bits;
use crate::fault::Fault;

/// X^8 + X^7 + X^6 + X^4 + X^2 + X + 1.
const GENERATOR: u32 = 0b1_1101_0111;

/// Which of b0 to b7 stands at each of SC bits 9 to 16 of the even frame.
const EVEN_ORDER: [usize; 8] = [0, 3, 2, 1, 5, 4, 6, 7];

/// Which of p0 to p7 stands at each of SC bits 9 to 16 of the odd frame.
const ODD_ORDER: [usize; 8] = [2, 1, 0, 4, 3, 5, 6, 7];

/// p0 to p7 of a code, p0 highest.
pub fn check_octet(code: u8) -> u8 {
    bits::remainder(&bits::from_octets(&[code]), GENERATOR, 8) as u8
}

/// The code word b0 to b7, p0 to p7.
pub fn word(code: u8) -> u16 {
    u16::from_be_bytes([code, check_octet(code)])
}

/// The word in the order of the line: eight bits of the even frame, eight of the odd one.
pub fn sent(code: u8) -> [u8; 2] {
    sent_with(Fault::None, code)
}

/// The code whose word is at most two bits away from what came in, in the order of the line.
pub fn read(line: [u8; 2]) -> Option<u8> {
    read_with(Fault::None, line)
}

pub(crate) fn read_with(fault: Fault, line: [u8; 2]) -> Option<u8> {
    let received = u16::from_be_bytes(line);
    let distance = |code| (received ^ u16::from_be_bytes(sent_with(fault, code))).count_ones();
    // Two words are at least five bits apart, so at most one code answers.
    (0..=255).find(|&code| distance(code) <= 2)
}

fn sent_with(fault: Fault, code: u8) -> [u8; 2] {
    let check = check_octet(code);
    let odd = match fault {
        Fault::NaturalCheckOrder => check,
        _ => reordered(check, ODD_ORDER),
    };
    [reordered(code, EVEN_ORDER), odd]
}

fn reordered(octet: u8, order: [usize; 8]) -> u8 {
    let bits = order.map(|index| bits::bit(octet, index + 1));
    bits::number(&bits) as u8
}

//! How the calls and answers of a comparison are printed: buffers cut short, and the first place where two answers part.

use std::fmt::{self, Debug};

use crate::text;

/// The most characters that are printed of a buffer.
const SHOWN: usize = 64;

/// The most characters that are printed of a value where two answers part.
const SHOWN_OF_VALUE: usize = 16;

/// More than any answer's buffer has.
const WHOLE: usize = u16::MAX as usize;

/// Octets of a buffer. They print as their number and hex digits, with a count where an octet stands many times; after
/// 64 characters they are cut. With a precision they print as the digits of that many octets.
#[derive(Clone, PartialEq, Eq)]
pub struct Octets(pub Vec<u8>);

impl Debug for Octets {
    fn fmt(&self, out: &mut fmt::Formatter) -> fmt::Result {
        let octets = match out.precision() {
            Some(most) => text::hex(&self.0[..most.min(self.0.len())]),
            None => cut(&text::octets(&self.0), SHOWN),
        };
        write!(out, "{}:{octets}", self.0.len())
    }
}

/// Where two answers part first: the field, which of its octets or numbers, counted from 1, and both values.
pub fn parting<L: Debug>(got: &L, wanted: &L) -> String {
    let [got, wanted] = [got, wanted].map(|left| format!("{left:.WHOLE$?}"));
    let common = got.bytes().zip(wanted.bytes()).take_while(|(one, other)| one == other).count();
    let head = &wanted[..common];
    let (field, value) = match head.rsplit_once(": ") {
        Some((names, value)) => (names.rsplit(' ').next().unwrap_or_default(), value),
        None => ("answer", head),
    };
    let (what, before, start) = match value.split_once(':') {
        Some((_, digits)) => ("octet", digits.len() / 2, common - digits.len() % 2),
        None => ("number", value.matches(", ").count(), head.rfind([' ', '[', '(']).map_or(0, |index| index + 1)),
    };
    let [got, wanted] = [&got, &wanted].map(|left| element(&left[start..]));
    format!("{field}, {what} {}: {got}, by the model {wanted}", before + 1)
}

/// The first value of a text, cut short.
fn element(text: &str) -> String {
    cut(text.split([',', ' ', ']', ')']).next().unwrap_or_default(), SHOWN_OF_VALUE)
}

/// The first characters of a text, at most `most`.
fn cut(text: &str, most: usize) -> String {
    match text.get(..most) {
        Some(cut) if cut.len() < text.len() => format!("{cut}.."),
        _ => text.to_string(),
    }
}

#[cfg(test)]
mod tests {
    use super::{parting, Octets};

    #[derive(Debug)]
    #[allow(dead_code)]
    struct Left {
        kind: u8,
        state: [u8; 3],
        line: Octets,
    }

    fn left() -> Left {
        Left { kind: 0, state: [31, 0, 7], line: Octets(vec![0xA5; 160]) }
    }

    #[test]
    fn a_long_buffer_is_cut() {
        let printed = format!("{:?}", Octets([0x5A, 0xA5].repeat(35_000)));
        assert_eq!(printed, format!("70000:{}..", "5AA5".repeat(16)));
        assert_eq!(format!("{:?}", Octets(vec![1, 2])), "2:0102");
    }

    #[test]
    fn an_octet_among_zeros_is_shown() {
        let mut octets = vec![0; 70_000];
        octets[65_536] = 0x5A;
        assert_eq!(format!("{:?}", Octets(octets)), "70000:00*65536+5A+00*4463");
    }

    #[test]
    fn the_first_difference_is_named() {
        let mut other = left();
        other.line.0[16] = 0x5A;
        assert_eq!(parting(&left(), &other), "line, octet 17: A5A5A5A5A5A5A5A5.., by the model 5AA5A5A5A5A5A5A5..");
        other.state[1] = 10;
        assert_eq!(parting(&left(), &other), "state, number 2: 0, by the model 10");
        other.kind = 2;
        assert_eq!(parting(&left(), &other), "kind, number 1: 0, by the model 2");
        assert_eq!(parting(&([31, 31], 96, 0), &([31, 20], 96, 0)), "answer, number 2: 31, by the model 20");
    }
}

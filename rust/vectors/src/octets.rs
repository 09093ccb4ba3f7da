//! Octets as text.

/// The octets of a text: hex digits, and `HH*N` for N times the octet HH, parted by blanks. None for another text.
pub fn read(text: &str) -> Option<Vec<u8>> {
    let mut octets = Vec::new();
    for token in text.split(' ').filter(|token| !token.is_empty()) {
        match token.split_once('*') {
            Some((octet, count)) => match digits(octet)?[..] {
                [octet] => octets.extend(vec![octet; count.parse().ok()?]),
                _ => return None,
            },
            None => octets.extend(digits(token)?),
        }
    }
    Some(octets)
}

fn digits(text: &str) -> Option<Vec<u8>> {
    let digits: Vec<u8> = text.chars().map(|char| char.to_digit(16).map(|digit| digit as u8)).collect::<Option<_>>()?;
    let pairs = digits.chunks_exact(2);
    pairs.remainder().is_empty().then(|| pairs.map(|pair| pair[0] << 4 | pair[1]).collect())
}

/// Octets as hex digits.
pub fn write(octets: &[u8]) -> String {
    octets.iter().map(|octet| format!("{octet:02x}")).collect()
}

#[cfg(test)]
mod tests {
    use super::{read, write};

    #[test]
    fn digits_and_runs_are_read() {
        assert_eq!(read(""), Some(vec![]));
        assert_eq!(read("0aF1 ff*3 00*0 7e"), Some(vec![0x0A, 0xF1, 0xFF, 0xFF, 0xFF, 0x7E]));
        assert_eq!(write(&[0x0A, 0xF1]), "0af1");
    }

    #[test]
    fn other_texts_are_none() {
        for text in ["0", "0g", "+f", "ff*", "ffff*2", "*3", "ff*-1", "ff*2*2"] {
            assert_eq!(read(text), None, "{text}");
        }
    }
}

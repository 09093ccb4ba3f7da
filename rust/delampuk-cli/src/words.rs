//! Calls as words of a command line: `HH[:FLAGS][*N]`.

use delampuk::Call;

/// A call, and how often it is made.
#[derive(Clone, Copy, Debug, PartialEq, Eq)]
pub struct Repeated {
    /// The call.
    pub call: Call,
    /// At least once.
    pub times: u64,
}

/// Reads a word; none where it is no call.
pub fn read(word: &str) -> Option<Repeated> {
    let (call, times) = match word.split_once('*') {
        Some((call, count)) => (call, number(count)?),
        None => (word, 1),
    };
    let (code, flags) = call.split_once(':').unwrap_or((call, ""));
    if code.len() != 2 || times == 0 {
        return None;
    }
    let code = u8::try_from(hex(code)?).ok()?;
    flags.chars().try_fold(Call::offer(code), with_flag).map(|call| Repeated { call, times })
}

/// The value of hex digits; none where there is another character.
pub fn hex(digits: &str) -> Option<u16> {
    // a sign is no digit, though from_str_radix takes one
    let all = digits.bytes().all(|digit| digit.is_ascii_hexdigit());
    u16::from_str_radix(digits, 16).ok().filter(|_| all)
}

fn number(digits: &str) -> Option<u64> {
    let all = digits.bytes().all(|digit| digit.is_ascii_digit());
    digits.parse().ok().filter(|_| all)
}

fn with_flag(call: Call, flag: char) -> Option<Call> {
    match flag {
        'm' => Some(Call { mute: true, ..call }),
        'a' => Some(Call { a: true, ..call }),
        'e' => Some(Call { e: true, ..call }),
        't' => Some(Call { t: true, ..call }),
        _ => None,
    }
}

#[cfg(test)]
mod tests {
    use super::*;

    #[test]
    fn a_call_has_a_code_flags_and_a_count() {
        let plain = Call::offer(0x80);
        assert_eq!(read("80"), Some(Repeated { call: plain, times: 1 }));
        assert_eq!(read("80:"), Some(Repeated { call: plain, times: 1 }));
        assert_eq!(read("80*12"), Some(Repeated { call: plain, times: 12 }));
        let flags = Call { mute: true, code: 0xAF, a: true, e: true, t: true };
        assert_eq!(read("aF:maet*070"), Some(Repeated { call: flags, times: 70 }));
        assert_eq!(read("80*18446744073709551615"), Some(Repeated { call: plain, times: u64::MAX }));
    }

    #[test]
    fn other_words_are_no_calls() {
        let wrong =
            ["", "8", "ZZ", "+8", "800", "8:m", "80:x", "80m", "80*", "80*0", "80*+1", "80*-1", "80*1*1", "80*1:m"];
        let long = ["80*18446744073709551616", "80*x", " 80", "80 ", "é", "80:M"];
        for word in wrong.iter().chain(&long) {
            assert_eq!(read(word), None, "{word}");
        }
    }
}

//! 01's figures, starred and not, and the exhaustive facts behind them.

use crate::common::Sender;
use model::bas;
use model::bits;
use model::codes;
use model::crc::crc4;
use model::forge::{idle, sending};
use model::frame::Block;
use model::listing::listing;
use model::recording::search;
use model::refusal::Refusal;
use model::sender::{Answer, SenderState};
use model::service::{rows, Flags};

#[test]
fn check_octets() {
    let figures = [(0x00, 0x00), (0x01, 0xD7), (0x80, 0x9E), (0x12, 0x1F), (0x1F, 0x09), (0xF0, 0x7B), (0x65, 0xA6)];
    for (code, check) in figures {
        assert_eq!(bas::check_octet(code), check, "code {code:02X}");
        assert_eq!(bas::word(code), u16::from_be_bytes([code, check]));
    }
}

#[test]
fn words_in_the_order_of_the_line() {
    assert_eq!(bas::sent(0x1F), [0b0100_1111, 0b0001_0001]);
    let others = [(0x01, [0x01, 0x6F]), (0x80, [0x80, 0x3E]), (0x12, [0x42, 0x1F]), (0x65, [0x39, 0xA6])];
    for (code, line) in others.into_iter().chain([(0xF0, [0xF0, 0xDB])]) {
        assert_eq!(bas::sent(code), line, "code {code:02X}");
    }
}

/// The word as a polynomial, divided as it stands.
fn word_remainder(word: u16) -> u8 {
    let [code, check] = word.to_be_bytes();
    bas::check_octet(code) ^ check
}

#[test]
fn remainders_of_single_bits() {
    let expected = [0x9E, 0x4F, 0xCC, 0x66, 0x33, 0xF2, 0x79, 0xD7, 0x80, 0x40, 0x20, 0x10, 0x08, 0x04, 0x02, 0x01];
    for (index, remainder) in expected.into_iter().enumerate() {
        assert_eq!(word_remainder(0x8000 >> index), remainder, "bit {index}");
    }
    assert_eq!(word_remainder(0xFFFF), 0xEB);
    assert_eq!(bas::read([0xFF, 0xFF]), None);
}

/// Schoolbook division on coefficients, lowest first, without shifting any register.
fn schoolbook(bits: &[bool], generator: &[bool]) -> Vec<bool> {
    let degree = generator.len() - 1;
    let mut rest = vec![false; degree];
    rest.extend(bits.iter().rev());
    for top in (degree..rest.len()).rev() {
        if rest[top] {
            for (index, &term) in generator.iter().enumerate() {
                rest[top - degree + index] ^= term;
            }
        }
    }
    rest.truncate(degree);
    rest.reverse();
    rest
}

#[test]
fn check_octets_by_schoolbook_division() {
    let generator = [0, 1, 2, 4, 6, 7, 8];
    let generator: Vec<bool> = (0..=8).map(|power| generator.contains(&power)).collect();
    for code in 0..=255 {
        let rest = schoolbook(&bits::from_octets(&[code]), &generator);
        assert_eq!(bits::number(&rest), u32::from(bas::check_octet(code)), "code {code:02X}");
    }
}

fn crc_of_only(bit: usize) -> u8 {
    let mut octets = [0; 160];
    octets[bit / 8] = 0x80 >> (bit % 8);
    crc4(&Block::from_octets(&octets))
}

#[test]
fn crc_of_01s_blocks() {
    assert_eq!(crc4(&Block::from_octets(&[0; 160])), 0b0000);
    assert_eq!(crc_of_only(1279), 0b0011);
    assert_eq!(crc_of_only(1278), 0b0110);
    assert_eq!(crc_of_only(0), 0b0101);
}

#[test]
fn crc_by_schoolbook_division() {
    let generator = [true, true, false, false, true];
    let c_bits = [84, 85, 86, 87].map(|octet| 8 * octet + 7);
    for bit in 0..1280 {
        let mut dividend = vec![false; 1280];
        dividend[bit] = !c_bits.contains(&bit);
        let rest = bits::number(&schoolbook(&dividend, &generator));
        assert_eq!(rest, u32::from(crc_of_only(bit)), "bit {bit}");
    }
    let recording = idle(20);
    for block in recording.chunks(160) {
        let mut dividend = bits::from_octets(block);
        for bit in c_bits {
            dividend[bit] = false;
        }
        let rest = bits::number(&schoolbook(&dividend, &generator));
        assert_eq!(rest, u32::from(crc4(&Block::from_octets(block))));
    }
}

#[test]
fn six_bits_beside_bit_7_and_seven_bits_over_it() {
    for audio in [20, 21, 25] {
        assert_eq!(Sender::new(sending(31, 5)).offer(audio), Ok(Answer::Sent), "audio second");
        assert_eq!(Sender::new(sending(audio, 0)).offer(0x65), Ok(Answer::Sent), "data second");
    }
    for audio in [18, 19, 24] {
        assert_eq!(Sender::new(sending(31, 5)).refusal(audio), 8, "audio second");
        assert_eq!(Sender::new(sending(audio, 0)).refusal(0x65), 8, "data second");
    }
}

#[test]
fn recordings_of_167_and_168_octets() {
    assert_eq!(search(&[0; 167], 0), Err(Refusal::Recording));
    assert_eq!(search(&[0; 168], 0), Err(Refusal::NoPlace));
    assert_eq!(listing(&[0; 167]), "none 9\n");
    assert_eq!(listing(&[0; 168]), "none 10\n");
}

/// Numbers of sixteen bits with `count` ones.
fn patterns(count: u32) -> Vec<u16> {
    (0..=u16::MAX).filter(|pattern| pattern.count_ones() == count).collect()
}

/// The other way to read: turn nothing, one bit or two, and see whether a code word comes out.
#[test]
fn every_word_is_read_as_turning_bits_would_read_it() {
    let mut codes_by_line = vec![None; 65_536];
    for code in 0..=255 {
        codes_by_line[usize::from(u16::from_be_bytes(bas::sent(code)))] = Some(code);
    }
    let turns = [patterns(0), patterns(1), patterns(2)].concat();
    let mut readable = 0;
    for line in 0..=u16::MAX {
        let found: Vec<u8> = turns.iter().filter_map(|turn| codes_by_line[usize::from(line ^ turn)]).collect();
        assert!(found.len() <= 1, "word {line:04X} has one code at most");
        assert_eq!(bas::read(line.to_be_bytes()), found.first().copied(), "word {line:04X}");
        readable += found.len();
    }
    assert_eq!(readable, 256 * 137);
}

#[test]
fn three_wrong_bits_are_never_read_as_the_sent_code() {
    let triples = patterns(3);
    assert_eq!(triples.len(), 560);
    for code in 0..=255 {
        let sent = u16::from_be_bytes(bas::sent(code));
        let readings: Vec<Option<u8>> = triples.iter().map(|triple| bas::read((sent ^ triple).to_be_bytes())).collect();
        assert!(!readings.contains(&Some(code)), "code {code:02X}");
        assert_eq!(readings.iter().flatten().count(), 240, "read as another code");
        assert_eq!(readings.iter().filter(|reading| reading.is_none()).count(), 320, "unreadable");
    }
}

#[test]
fn of_256_remainders_137_can_be_mended() {
    let readable = (0..=255).filter(|&odd| bas::read([0, odd]).is_some()).count();
    assert_eq!((readable, 256 - readable), (137, 119));
    let remainders: std::collections::BTreeSet<u8> =
        [patterns(0), patterns(1), patterns(2)].concat().into_iter().map(word_remainder).collect();
    assert_eq!(remainders.len(), 137, "each pattern to turn has a remainder of its own");
}

#[test]
fn code_words_are_five_bits_apart() {
    let distance = |one: u8, other: u8| (bas::word(one) ^ bas::word(other)).count_ones();
    let nearest = (0..=255).flat_map(|one| (0..one).map(move |other| distance(one, other))).min();
    assert_eq!(nearest, Some(5));
}

#[test]
fn the_sample_listing() {
    let recording = &idle(2)[..168];
    assert_eq!(listing(recording), "found 0\n0 waiting none --\nleft 8\n");
}

#[test]
fn ten_idle_blocks() {
    let waiting = (1..=5).map(|count| format!("{count} waiting good --\n"));
    let read = (6..=9).map(|count| format!("{count} read good 1F\n"));
    let lines: String = waiting.chain(read).collect();
    assert_eq!(listing(&idle(10)), format!("found 0\n0 waiting none --\n{lines}left 0\n"));
}

#[test]
fn an_idle_session() {
    let mut sender = Sender::new(SenderState::FRESH);
    let mut remainders = Vec::new();
    for block in 1..=8 {
        sender.offer(0x1F).expect("an idle block");
        remainders.push(sender.state.remainder);
        if block == 1 {
            let service_channel: Vec<bool> = sender.line.iter().map(|octet| octet & 1 == 1).collect();
            let octets = bits::to_octets(&service_channel);
            let ones = [0xFF; 8];
            assert_eq!(octets, [&[0x1B, 0x4F][..], &ones, &[0x40, 0x11], &ones].concat());
        }
    }
    assert_eq!(remainders, [0b1100, 0b1100, 0b0000, 0b1100, 0b0000, 0b0010, 0b1100, 0b1100]);
}

#[test]
fn the_sixteen_rows() {
    let text = |flags, remainder| rows(flags, remainder).map(|row| row.map(|bit| u8::from(bit).to_string()).concat());
    let t = Flags { t: true, ..Flags::default() };
    let quiet = text(Flags::default(), 0);
    for (frame, row) in quiet.iter().enumerate() {
        assert_eq!(&row[1..], if frame % 2 == 0 { "0011011" } else { "1000000" }, "frame {frame}");
    }
    let first_bits = |rows: [String; 16]| rows.map(|row| row[..1].to_string()).concat();
    assert_eq!(first_bits(quiet.clone()), "0000010001110000");
    assert_eq!(first_bits(text(t, 0)), "0000010001110010");
    let odd: String = [1, 3, 5, 7, 9, 11].iter().map(|&frame: &usize| &quiet[frame][..1]).collect();
    assert_eq!(odd, "001011");
}

#[test]
fn flags_and_remainder_in_the_rows() {
    for remainder in 0..=255 {
        for number in 0..8 {
            let flags = Flags { a: number & 4 != 0, e: number & 2 != 0, t: number & 1 != 0 };
            let rows = rows(flags, remainder);
            for frame in (1..16).step_by(2) {
                assert_eq!(rows[frame][2..4], [flags.a, flags.e]);
                assert_eq!(bits::number(&rows[frame][4..]), u32::from(remainder) % 16, "low four bits");
            }
            assert_eq!(rows[14][0], flags.t);
        }
    }
}

#[test]
fn the_carried_list() {
    let count = |attribute: u8| (0..=31).filter(|&value| codes::carried(codes::code(attribute, value))).count();
    assert_eq!((0..=7).map(count).collect::<Vec<_>>(), [12, 1, 0, 15, 32, 32, 32, 7]);
}

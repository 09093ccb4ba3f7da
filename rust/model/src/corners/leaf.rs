//! Corner cases of presets, BAS words, CRC-4 and service rows.

use super::case::Case;
use super::Corner;
use crate::forge::{filler, idle, named, sending, silent};

use crate::bas;
use crate::sender::SenderState;
use crate::service::Flags;

/// All of them.
pub fn corners() -> Vec<Corner> {
    let groups = [presets_read(), presets_written(), words(), remainders(), rows()];
    groups.into_iter().flatten().collect()
}

fn preset(audio: u16, data: u16, rest: u16) -> Case {
    Case::PresetRead((audio << 11 | data << 6 | rest).to_be_bytes().to_vec())
}

fn presets_read() -> Vec<Corner> {
    let mut cases = vec![
        named("P1", "two octets", preset(20, 5, 0)),
        named("P1", "no octet", Case::PresetRead(vec![])),
        named("P1", "one octet", Case::PresetRead(vec![0xA1])),
        named("P1", "three octets", Case::PresetRead(vec![0xA1, 0x40, 0x00])),
        named("P1", "the zeros set", preset(20, 5, 0x3F)),
        named("P3", "data off is still offered", preset(20, 0, 0)),
        named("P3", "both off", preset(31, 0, 0)),
        named("P4", "chosen, but not in force", preset(24, 4, 0)),
        named("P5", "audio [0]", preset(0, 0, 0)),
        named("P5", "audio unlisted", preset(1, 0, 0)),
        named("P5", "data unlisted", preset(31, 15, 0)),
        named("P5", "an overlap", preset(24, 5, 0)),
        named("P5", "w = 1 under all data", preset(11, 13, 0)),
    ];
    for bit in 0..6 {
        cases.push(named("P1", "one of the six zeros set", preset(20, 5, 1 << bit)));
    }
    for value in 0..32 {
        cases.push(named("P5", "each audio value", preset(value, 0, 0)));
        cases.push(named("P5", "each data value", preset(31, value, 0)));
    }
    cases
}

fn presets_written() -> Vec<Corner> {
    let out_of_range = [
        SenderState { block: 0, ..sending(20, 5) },
        SenderState { remainder: 16, ..sending(20, 5) },
        SenderState { data: 8, ..sending(20, 5) },
        SenderState { in_force: 25, ..sending(20, 5) },
        SenderState { chosen: 0, in_force: 31, ..sending(20, 5) },
        SenderState { chosen: 200, in_force: 200, ..sending(20, 5) },
    ];
    let in_range = [
        ("both on", sending(20, 5)),
        ("the chosen audio while muted", silent(20, 5)),
        ("both off", sending(31, 0)),
        ("fresh", SenderState::FRESH),
        ("an item due", SenderState { item_due: true, ..sending(24, 4) }),
    ];
    let mut cases: Vec<Corner> = out_of_range
        .into_iter()
        .map(|state| named("P2", "writing from a state out of range", Case::PresetWrite(state)))
        .collect();
    for (about, state) in in_range {
        cases.push(named("P4", about, Case::PresetWrite(state)));
    }
    cases
}

fn words() -> Vec<Corner> {
    let mut cases = vec![
        named("G8", "a whole word is mended by nothing", Case::ReadWord(bas::sent(0x1F))),
        named("G8", "a word of zeros is whole", Case::ReadWord([0, 0])),
        named("G8", "a word of ones cannot be mended", Case::ReadWord([0xFF, 0xFF])),
    ];
    for code in 0..=255 {
        cases.push(named("G8", "each check octet", Case::Check(code)));
        cases.push(named("G8", "each word as sent", Case::Sent(code)));
    }
    for index in 0..16 {
        for other in 0..=index {
            let flips = (0x8000_u16 >> index | 0x8000 >> other).to_be_bytes();
            cases.push(named("G8", "one or two bits wrong", Case::ReadWord(flips)));
        }
    }
    for odd in 0..=255 {
        cases.push(named("G8", "each remainder of code 00", Case::ReadWord([0, odd])));
    }
    cases
}

fn remainders() -> Vec<Corner> {
    let mut cases = vec![
        named("G7", "a block all 0", Case::Crc(vec![0; 160])),
        named("G7", "a block of ones", Case::Crc(vec![0xFF; 160])),
        named("G7", "block 2 of an idle session", Case::Crc(idle(2)[160..].to_vec())),
    ];
    for bit in [0, 1, 7, 8, 639, 640, 1271, 1272, 1278, 1279] {
        cases.push(named("G7", &format!("only bit {} of 1,280 is 1", bit + 1), Case::Crc(only(bit))));
    }
    for octet in 80..=89 {
        cases.push(named("G7", &format!("only bit 8 of octet {} is 1", octet + 1), Case::Crc(only(8 * octet + 7))));
    }
    let block = filler(160, 5);
    for c_bits in 0..16 {
        let mut with_c_bits = block.clone();
        for index in 0..4 {
            with_c_bits[84 + index] = with_c_bits[84 + index] & 0xFE | (c_bits >> (3 - index) & 1);
        }
        cases.push(named("G7", "C1 to C4 have no part in the sum", Case::Crc(with_c_bits)));
    }
    cases
}

fn only(bit: usize) -> Vec<u8> {
    let mut block = vec![0; 160];
    block[bit / 8] = 0x80 >> (bit % 8);
    block
}

fn rows() -> Vec<Corner> {
    let mut cases = Vec::new();
    for flags in 0..8 {
        let flags = Flags { a: flags & 4 != 0, e: flags & 2 != 0, t: flags & 1 != 0 };
        cases.push(named("G6", "each set of flags", Case::Service(flags, 0)));
    }
    for remainder in 0..=15 {
        cases.push(named("G3", "each remainder", Case::Service(Flags::default(), remainder)));
    }
    for remainder in [16, 17, 31, 99, 128, 240, 255] {
        cases.push(named(
            "G3",
            "of a larger remainder the low four bits count",
            Case::Service(Flags::default(), remainder),
        ));
    }
    cases
}

//! Each refusal number in each call that can give it, and the order among them.

use crate::common::Sender;
use model::codes;
use model::forge::{idle, mode, reading, sending, silent, Line};
use model::preset;
use model::reader::{self, ReaderState};
use model::recording::{search, Step, Walk};
use model::refusal::Refusal;
use model::sender::SenderState;
use model::slots::Due;

fn sender_states_out_of_range() -> Vec<SenderState> {
    let base = sending(20, 5);
    let mut states = Vec::new();
    for audio in (0..=255).filter(|audio| ![11, 18, 19, 20, 21, 24, 25, 27, 28, 29, 31].contains(audio)) {
        states.push(SenderState { chosen: audio, in_force: audio, ..base });
        states.push(SenderState { chosen: audio, in_force: 31, ..base });
        states.push(SenderState { in_force: audio, ..base });
    }
    states.extend((15..=255).map(|data| SenderState { data, ..sending(31, 0) }));
    states.extend((16..=255).map(|remainder| SenderState { remainder, ..base }));
    states.extend([0].into_iter().chain(9..=255).map(|block| SenderState { block, ..base }));
    for in_force in [11, 18, 19, 21, 24, 25, 27, 28, 29] {
        states.push(SenderState { in_force, ..base });
    }
    for (chosen, data) in [(20, 8), (24, 5), (11, 13), (11, 14), (27, 10)] {
        states.push(SenderState { data, ..sending(chosen, 0) });
        states.push(SenderState { data, ..silent(chosen, 0) });
    }
    states
}

#[test]
fn sender_1_and_preset_writing_1() {
    for state in sender_states_out_of_range() {
        for item_due in [false, true] {
            let state = SenderState { item_due, ..state };
            assert_eq!(Sender::new(state).refusal(0x1F), 1, "{state:?}");
            assert_eq!(Sender::muted(state).refusal(0x1F), 1, "{state:?}");
            assert_eq!(preset::write(&state), Err(Refusal::State));
        }
    }
}

#[test]
fn states_in_range_are_not_refused() {
    for block in 1..=8 {
        for remainder in 0..=15 {
            for state in [sending(20, 5), silent(20, 5), sending(31, 14), silent(11, 12)] {
                let state = SenderState { block, remainder, ..state };
                assert!(Sender::new(state).offer(0x80).is_ok(), "{state:?}");
                assert!(preset::write(&state).is_ok());
            }
        }
    }
}

/// Each wrong part at once with each other: the smallest number wins.
#[test]
fn sender_1_to_8_in_order() {
    let due = SenderState { item_due: true, ..sending(31, 5) };
    // State, mute, offered code, and the number that rows 5 to 8 give.
    let calls = [
        (sending(31, 5), false, 0x01, Some(5)),
        (sending(31, 5), true, 0x01, Some(5)),
        (due, true, 0xE0, Some(6)),
        (sending(31, 5), true, 0x18, Some(7)),
        (sending(31, 5), true, 0x14, Some(7)),
        (sending(31, 5), false, 0x18, Some(8)),
        (sending(24, 0), false, 0x65, Some(8)),
        (silent(24, 0), true, 0x65, Some(8)),
        (sending(31, 5), false, 0x14, None),
    ];
    for (state, mute, offered, row) in calls {
        for wrong in 0_u8..16 {
            let mut sender = Sender::new(state);
            sender.mute = mute;
            sender.state.remainder = if wrong & 1 != 0 { 16 } else { 0 };
            sender.line.truncate(if wrong & 2 != 0 { 159 } else { 160 });
            sender.voice.resize(if wrong & 4 != 0 { 141 } else { 140 }, 0);
            sender.data.resize(if wrong & 8 != 0 { 0 } else { 156 }, 0);
            let first = (1..=4).find(|number| wrong >> (number - 1) & 1 == 1);
            match first.or(row) {
                Some(number) => assert_eq!(sender.refusal(offered), number),
                None => assert!(sender.offer(offered).is_ok()),
            }
        }
    }
}

#[test]
fn sender_lengths() {
    for length in (0..=320).filter(|&length| length != 160) {
        let mut sender = Sender::new(sending(20, 5));
        sender.line = vec![7; length];
        assert_eq!(sender.refusal(0x1F), 2);
    }
    for length in (0..=320).filter(|&length| length != 140) {
        let mut sender = Sender::new(sending(20, 5));
        sender.voice = vec![7; length];
        assert_eq!(sender.refusal(0x1F), 3);
    }
    for length in (0..=320).filter(|&length| length != 156) {
        let mut sender = Sender::new(sending(20, 5));
        sender.data = vec![7; length];
        assert_eq!(sender.refusal(0x1F), 4);
    }
}

/// Rows 5 to 8 as predicates of their own, asked one by one.
fn row_of(state: &SenderState, mute: bool, code: u8) -> Option<u8> {
    let audio_goes_off = mute && state.in_force != 31;
    let audio_comes_back = !mute && state.in_force == 31 && state.chosen != 31;
    let plain = !state.item_due;
    let held = plain && (audio_goes_off || audio_comes_back);
    let (attribute, value) = (code / 32, code % 32);
    let audio_list = [0, 11, 18, 19, 20, 21, 24, 25, 27, 28, 29, 31];
    let is_audio = attribute == 0 && audio_list.contains(&value);
    let is_data = attribute == 3 && value < 15;
    let escapes = [15, 16, 17, 18, 19, 20, 24];
    let other = code == 0x20 || (4..7).contains(&attribute) || attribute == 7 && escapes.contains(&value);
    let over_data = is_audio && value != 0 && value != 31 && codes::overlap(value, state.data);
    let over_chosen = is_data && codes::overlap(state.chosen, value);
    let rows = [
        (5, plain && !held && !(is_audio || is_data || other)),
        (6, state.item_due && attribute == 7),
        (7, plain && !held && is_audio && mute),
        (8, plain && !held && (over_data || over_chosen)),
    ];
    rows.iter().find(|(_, given)| *given).map(|(number, _)| *number)
}

#[test]
fn every_code_in_many_states() {
    let pairs = [(31, 0), (31, 14), (20, 5), (20, 1), (24, 0), (24, 4), (11, 12), (27, 9)];
    for (chosen, data) in pairs {
        for (in_force, item_due, mute) in [31, chosen]
            .into_iter()
            .flat_map(|f| [(f, false, false), (f, false, true), (f, true, false), (f, true, true)])
        {
            let state = SenderState { in_force, item_due, ..sending(chosen, data) };
            for code in 0..=255 {
                let mut sender = Sender::new(state);
                sender.mute = mute;
                match row_of(&state, mute, code) {
                    Some(row) => assert_eq!(sender.refusal(code), row, "{state:?}, mute {mute}, code {code:02X}"),
                    None => assert!(sender.offer(code).is_ok(), "{state:?}, mute {mute}, code {code:02X}"),
                }
            }
        }
    }
}

fn reader_states_out_of_range() -> Vec<ReaderState> {
    let base = reading(3, mode(20, 5));
    let mut states = Vec::new();
    for bad in [mode(20, 8), mode(0, 0), mode(1, 0), mode(30, 0), mode(200, 0), mode(31, 15), mode(31, 200)] {
        for wrong_words in 0..=2 {
            states.push(ReaderState { mode: bad, wrong_words, ..base });
            states.push(ReaderState { kept: bad, wrong_words, ..base });
        }
    }
    for run in 3..=255 {
        states.push(ReaderState { wrong_words: run, ..base });
        states.push(ReaderState { wrong_patterns: run, ..base });
        states.push(ReaderState { wrong_patterns: run, block: None, ..base });
    }
    states.extend((16..=255).map(|remainder| ReaderState { remainder, ..base }));
    states.extend((16..=255).map(|remainder| ReaderState { remainder, before: false, ..base }));
    states.extend([0].into_iter().chain(9..=255).map(|block| ReaderState { block: Some(block), ..base }));
    states.extend([256, 257, 1000, 65_535].map(|words| ReaderState { due: Due::Message(words), ..base }));
    states
}

/// A reading call with its state and buffers; a refusal must leave them alone.
fn reader_refusal(state: ReaderState, line: &[u8], voice: usize, data: usize) -> Option<u8> {
    let mut lent = (state, vec![0xA5; voice], vec![0x5A; data]);
    let before = lent.clone();
    let answer = reader::read(&mut lent.0, line, &mut lent.1, &mut lent.2);
    let refusal = answer.err()?;
    assert_eq!(before, lent, "a refusal changes nothing");
    Some(refusal.number())
}

#[test]
fn reader_1() {
    let line = Line::new(3, 0x1F).octets;
    for state in reader_states_out_of_range() {
        assert_eq!(reader_refusal(state, &line, 140, 156), Some(1), "{state:?}");
    }
}

#[test]
fn reader_states_in_range() {
    let line = Line::new(3, 0x1F).octets;
    for words in 0..=255 {
        let state = ReaderState { due: Due::Message(words), ..reading(3, mode(20, 5)) };
        assert_eq!(reader_refusal(state, &line, 140, 156), None);
    }
    for number in 0..64 {
        let first_bits = std::array::from_fn(|index| number >> index & 1 == 1);
        let state = ReaderState { first_bits, ..reading(6, mode(20, 5)) };
        assert_eq!(reader_refusal(state, &line, 140, 156), None);
    }
}

#[test]
fn reader_1_to_4_in_order() {
    let line = Line::new(3, 0x1F).octets;
    for wrong in 0_u8..16 {
        let remainder = if wrong & 1 != 0 { 16 } else { 9 };
        let state = ReaderState { remainder, ..reading(3, mode(20, 5)) };
        let line = if wrong & 2 != 0 { &line[1..] } else { &line[..] };
        let voice = if wrong & 4 != 0 { 139 } else { 140 };
        let data = if wrong & 8 != 0 { 157 } else { 156 };
        let first = (1..=4).find(|number| wrong >> (number - 1) & 1 == 1);
        assert_eq!(reader_refusal(state, line, voice, data), first);
    }
}

#[test]
fn reader_lengths() {
    let (state, line) = (reading(3, mode(20, 5)), Line::new(3, 0x1F).octets);
    for length in 0..=320 {
        let row = |right: usize, number| (length != right).then_some(number);
        assert_eq!(reader_refusal(state, &vec![7; length], 140, 156), row(160, 2));
        assert_eq!(reader_refusal(state, &line, length, 156), row(140, 3));
        assert_eq!(reader_refusal(state, &line, 140, length), row(156, 4));
    }
}

#[test]
fn search_9_before_10() {
    let aligned = idle(2);
    let zeros = vec![0; 65_537];
    for start in [0, 1, 1000, 65_536, 65_537, 65_538, usize::MAX] {
        assert_eq!(search(&zeros, start), Err(Refusal::Recording), "over 65,536 octets");
    }
    for length in 0..168 {
        assert_eq!(search(&zeros[..length], 0), Err(Refusal::Recording));
    }
    assert_eq!(search(&aligned, 320 - 167), Err(Refusal::Recording), "167 from the start on");
    assert_eq!(search(&aligned, 320 - 168), Err(Refusal::NoPlace), "168 from the start on");
    assert_eq!(search(&zeros[..65_536], 0), Err(Refusal::NoPlace));
    for start in [320, 321, usize::MAX] {
        assert_eq!(search(&aligned, start), Err(Refusal::Recording));
    }
}

/// Walks that would answer a block, the end and a place, with every set of wrong parts.
#[test]
fn walk_1_3_4_9_in_order() {
    let (recording, long) = (idle(3), vec![0; 65_537]);
    for (place, searching) in [(0, false), (480, false), (400, true), (0, true)] {
        for wrong in 0_u8..32 {
            let remainder = if wrong & 1 != 0 { 16 } else { 9 };
            let state = ReaderState { remainder, ..reading(3, mode(20, 5)) };
            let voice = if wrong & 2 != 0 { 0 } else { 140 };
            let data = if wrong & 4 != 0 { 155 } else { 156 };
            let recording = if wrong & 8 != 0 { &long[..] } else { &recording };
            let place = if wrong & 16 != 0 { recording.len() + 1 } else { place };
            let numbers = [1, 3, 4, 9, 9];
            let first = (0..5).find(|index| wrong >> index & 1 == 1).map(|index| numbers[index]);
            let walk = Walk { recording, place, searching };
            assert_eq!(walk_refusal(walk, state, voice, data), first, "wrong parts {wrong:05b}");
        }
    }
}

fn walk_refusal(walk: Walk, state: ReaderState, voice: usize, data: usize) -> Option<u8> {
    let mut lent = (walk, state, vec![0xA5; voice], vec![0x5A; data]);
    let before = lent.clone();
    let answer = lent.0.step(&mut lent.1, &mut lent.2, &mut lent.3);
    if !matches!(answer, Ok(Step::Block(_))) {
        assert_eq!((before.1, &before.2, &before.3), (lent.1, &lent.2, &lent.3), "only a block changes these");
    }
    let refusal = answer.err()?;
    assert_eq!(before, lent, "a refusal changes nothing");
    Some(refusal.number())
}

#[test]
fn walk_1_for_every_state_out_of_range() {
    let recording = idle(2);
    for state in reader_states_out_of_range() {
        for (place, searching) in [(0, false), (320, false), (0, true)] {
            let walk = Walk { recording: &recording, place, searching };
            assert_eq!(walk_refusal(walk, state, 140, 156), Some(1), "{state:?}");
        }
    }
}

#[test]
fn preset_11() {
    let accepted = (0..=u16::MAX).filter(|&bits| preset::read(bits).is_ok()).count();
    assert_eq!(accepted, 100, "the pairs free of overlap, zeros zero");
    for bits in [0xA140 | 1, 0xA140 | 0x20, 0x0000, 0x0800, 0xF800 | 15 << 6, 24 << 11 | 5 << 6] {
        assert_eq!(preset::read(bits), Err(Refusal::Preset), "{bits:04X}");
    }
    for octets in [&[][..], &[0xA1], &[0xA1, 0x40, 0x00], &[0xA1, 0x41]] {
        assert_eq!(preset::read_octets(octets), Err(Refusal::Preset));
    }
}

//! Corner cases of the sender's step (01, "Sending a block" and "Refusal numbers").

use super::case::{Case, SenderCase};
use super::Corner;
use crate::forge::{call, filler, named, sending, silent};

use crate::codes::{self, AUDIO};
use crate::fault::Fault;
use crate::frame::{BLOCK_OCTETS, DATA_OCTETS, VOICE_OCTETS};
use crate::preset;
use crate::sender::SenderState;
use crate::service::Flags;

/// All of them.
pub fn corners() -> Vec<Corner> {
    let groups = [
        general(),
        refusal_order(),
        items(),
        held(),
        audio_while_muted(),
        overlaps(),
        neutral_and_again(),
        cutting(),
        buffers(),
        words_due(),
        states_out_of_range(),
        service_bits(),
    ];
    groups.into_iter().flatten().collect()
}

fn corner(id: &'static str, about: &str, case: SenderCase) -> Corner {
    named(id, about, Case::Sender(case))
}

fn offering(state: SenderState, offered: u8) -> SenderCase {
    SenderCase { offered, ..call(state) }
}

fn muted(state: SenderState, offered: u8) -> SenderCase {
    SenderCase { mute: true, ..offering(state, offered) }
}

fn with_item_due(state: SenderState) -> SenderState {
    SenderState { item_due: true, ..state }
}

/// The call that follows an accepted one: the state that it left, other inputs as given.
fn then(first: &SenderCase, second: SenderCase) -> SenderCase {
    let state = first.run(Fault::None).map_or(first.state, |(state, ..)| state);
    SenderCase { state, ..second }
}

fn general() -> Vec<Corner> {
    let last_block = SenderState { block: 8, ..sending(20, 5) };
    let all_flags = Flags { a: true, e: true, t: true };
    vec![
        corner("G1", "a refusal leaves state and line block alone", offering(sending(20, 5), 0x41)),
        corner("G1", "so does refusal 1", offering(sending(0, 5), 0x1F)),
        corner("G6", "all flags set, mute set", SenderCase { flags: all_flags, ..muted(last_block, 0x1F) }),
        corner("G6", "all flags set, mute clear", SenderCase { flags: all_flags, ..call(last_block) }),
        corner("G7", "block 8 is followed by block 1", call(last_block)),
        corner("G7", "the first block of a session carries 0000", call(SenderState::FRESH)),
    ]
}

/// Everything wrong at once, then mended row by row.
fn refusal_order() -> Vec<Corner> {
    let wrong = SenderCase {
        state: SenderState { remainder: 16, ..SenderState::FRESH },
        line: vec![0xA5; 159],
        voice: filler(141, 1),
        data: filler(155, 2),
        ..muted(SenderState::FRESH, 0x01)
    };
    let two = SenderCase { state: SenderState { data: 14, ..SenderState::FRESH }, ..wrong.clone() };
    let three = SenderCase { line: vec![0xA5; BLOCK_OCTETS], ..two.clone() };
    let four = SenderCase { voice: filler(VOICE_OCTETS, 1), ..three.clone() };
    let five = SenderCase { data: filler(DATA_OCTETS, 2), ..four.clone() };
    let seven = SenderCase { offered: 0x18, ..five.clone() };
    let eight = SenderCase { mute: false, ..seven.clone() };
    let six = SenderCase { offered: 0xE0, state: with_item_due(five.state), ..five.clone() };
    vec![
        corner("G2", "rows 1 to 5 at once", wrong),
        corner("G2", "rows 2 to 5 at once", two),
        corner("G2", "rows 3 to 5 at once", three),
        corner("G2", "rows 4 and 5 at once", four),
        corner("G2", "row 5 alone", five),
        corner("G2", "row 6 alone", six),
        corner("S10", "rows 7 and 8 at once", seven),
        corner("S10", "row 8 alone", eight),
    ]
}

fn items() -> Vec<Corner> {
    let muted_item = muted(with_item_due(sending(24, 1)), 0x1F);
    let silent_item = offering(with_item_due(silent(24, 1)), 0x18);
    let mut cases = vec![
        corner("S1", "item due, mute set, audio in force: the item goes", muted_item.clone()),
        corner("S1", "then mute's off goes", then(&muted_item, muted(muted_item.state, 0x65))),
        corner("S2", "item due, chosen audio not open: the item goes", silent_item.clone()),
        corner("S2", "then the chosen command goes", then(&silent_item, call(silent_item.state))),
    ];
    let with_data = with_item_due(sending(20, 5));
    for code in [0x00, 0x01, 0x18, 0x1F, 0x21, 0x46, 0x65, 0x6D, 0x6F, 0x80, 0xDF] {
        cases.push(corner("S3", "any code of 000 to 110 as an item", offering(with_data, code)));
        cases.push(corner("S3", "the same with mute set", muted(with_data, code)));
    }
    for code in [0xE0, 0xEF, 0xF0, 0xF8, 0xFF] {
        cases.push(corner("S3", "attribute 111 as an item", offering(with_data, code)));
    }
    cases
}

fn held() -> Vec<Corner> {
    let release = offering(silent(24, 0), 0x61);
    let mute = muted(sending(24, 0), 0x61);
    let mut cases = vec![
        corner("S4", "held by the release", release.clone()),
        corner("S4", "offered again and sent", then(&release, release.clone())),
        corner("S4", "held by mute", mute.clone()),
        corner("S4", "offered again and sent", then(&mute, mute.clone())),
        corner("S6", "audio off offered where mute's off goes", muted(sending(24, 1), 0x1F)),
        corner("S6", "neutral offered where mute's off goes", muted(sending(24, 1), 0x00)),
        corner("S7", "other audio offered in the call that releases", offering(silent(24, 0), 0x19)),
        corner("S7", "audio off offered in the call that releases", offering(silent(24, 0), 0x1F)),
    ];
    for code in [0x01, 0x41, 0x65, 0x6F, 0xE0, 0xF0, 0xFF] {
        cases.push(corner("S5", "held by mute, not judged", muted(sending(24, 1), code)));
        cases.push(corner("S5", "held by the release, not judged", offering(silent(24, 1), code)));
    }
    let short_line = SenderCase { line: vec![0; 1], ..mute.clone() };
    let no_voice = SenderCase { voice: vec![], ..mute.clone() };
    let long_data = SenderCase { data: vec![0; 157], ..mute };
    cases.push(corner("S5", "held, yet row 2 is judged", short_line));
    cases.push(corner("S5", "held, yet row 3 is judged", no_voice));
    cases.push(corner("S5", "held, yet row 4 is judged", long_data));
    cases
}

fn audio_while_muted() -> Vec<Corner> {
    let mut cases: Vec<Corner> = (0..=31)
        .map(|value| {
            let case = muted(sending(31, 1), codes::code(AUDIO, value));
            corner("S8", "every (000) code while mute is set and audio off", case)
        })
        .collect();
    for code in [0x00, 0x1F, 0x18, 0x02] {
        cases.push(corner("S8", "the same with audio chosen", muted(silent(24, 1), code)));
    }
    cases
}

fn overlaps() -> Vec<Corner> {
    let mut cases = vec![
        corner("S9", "data over the chosen audio while muted", muted(silent(24, 0), 0x65)),
        corner("S9", "data beside the chosen audio while muted", muted(silent(20, 0), 0x65)),
        corner("S12", "audio over data in force", offering(sending(31, 5), 0x18)),
        corner("S12", "audio beside data in force", offering(sending(31, 5), 0x14)),
        corner("S12", "data over audio in force", offering(sending(24, 0), 0x65)),
        corner("S12", "data beside audio in force", offering(sending(20, 0), 0x65)),
    ];
    for value in 0..=14 {
        let code = 0x60 | value;
        cases.push(corner("S12", "each data value over w = 4", offering(sending(27, 0), code)));
    }
    for value in [0, 11, 29, 28, 27, 20, 21, 25, 18, 19, 24, 31] {
        cases.push(corner("S12", "each audio value over bits 5-7", offering(sending(31, 9), value)));
    }
    cases
}

fn neutral_and_again() -> Vec<Corner> {
    let next_block = |first: SenderCase| then(&first, call(first.state));
    vec![
        corner("S11", "the audio in force again", offering(sending(20, 5), 0x14)),
        corner("S11", "the data in force again", offering(sending(20, 5), 0x65)),
        corner("S11", "audio of the same width", offering(sending(20, 5), 0x19)),
        corner("S11", "audio off again", offering(sending(31, 5), 0x1F)),
        corner("S13", "neutral turns both off", offering(sending(20, 5), 0x00)),
        corner("S13", "and the next block is empty", next_block(offering(sending(20, 5), 0x00))),
        corner("S13", "neutral with all data on", offering(sending(31, 14), 0x00)),
        corner("S13", "audio off leaves data on", offering(sending(20, 5), 0x1F)),
    ]
}

fn cutting() -> Vec<Corner> {
    let opens = offering(sending(31, 0), 0x18);
    let closes = offering(sending(24, 1), 0x1F);
    let data_on = offering(sending(20, 0), 0x65);
    let from_preset = preset::read(0xA140).map_or(SenderState::FRESH, |(state, _)| state);
    vec![
        corner("S14", "the block that opens audio has no voice", opens.clone()),
        corner("S14", "the next one has", then(&opens, call(opens.state))),
        corner("S14", "the block that closes audio still has voice", closes.clone()),
        corner("S14", "the next one has none", then(&closes, call(closes.state))),
        corner("S14", "the block that opens data has none", data_on.clone()),
        corner("S14", "the next one has both", then(&data_on, call(data_on.state))),
        corner("S15", "audio off: nobody's places carry ones", call(sending(31, 1))),
        corner("S15", "muted, chosen audio not in force", muted(silent(24, 1), 0x61)),
        corner("S15", "mute set with voice in force: ones at once", muted(sending(24, 4), 0x61)),
        corner("S16", "the block that carries the release is silent", call(silent(24, 4))),
        corner("S19", "the release after a preset", offering(from_preset, 0x65)),
        corner("S19", "mute set after a preset: the offered data goes", muted(from_preset, 0x65)),
    ]
}

fn buffers() -> Vec<Corner> {
    let mut cases = Vec::new();
    for (audio, data, voice_bits, data_bits) in [(11, 1, 160, 6), (25, 6, 960, 192), (24, 2, 1120, 24)] {
        let usual = call(sending(audio, data));
        let mut turned = usual.clone();
        turn_rest(&mut turned.voice, voice_bits);
        turn_rest(&mut turned.data, data_bits);
        cases.push(corner("S17", "what counts of voice and data", usual));
        cases.push(corner("S17", "the rest turned over: the same block", turned));
    }
    for audio in [11, 29, 28, 27, 20, 21, 25, 18, 19, 24] {
        cases.push(corner("S17", "each audio value", call(sending(audio, 0))));
    }
    for data in 0..=14 {
        cases.push(corner("S17", "each data value", call(sending(31, data))));
    }
    for content in [0x00, 0xFF] {
        let line = vec![content; BLOCK_OCTETS];
        let case = SenderCase { line, ..call(sending(20, 5)) };
        cases.push(corner("S22", "the line block's contents at entry have no influence", case));
    }
    cases
}

/// Turns every bit from the one after the first `counting` bits on.
fn turn_rest(buffer: &mut [u8], counting: usize) {
    for index in counting..8 * buffer.len() {
        buffer[index / 8] ^= 0x80 >> (index % 8);
    }
}

fn words_due() -> Vec<Corner> {
    let refused = offering(with_item_due(sending(20, 5)), 0xF0);
    let mut cases = vec![
        corner("S18", "(111)[24] leaves nothing due", offering(sending(20, 5), 0xF8)),
        corner("S18", "(111)[24] as an item", offering(with_item_due(sending(20, 5)), 0xF8)),
        corner("S21", "a refused call is no block", refused.clone()),
        corner("S21", "the item is still due in the next", then(&refused, call(refused.state))),
    ];
    for value in 0..=31 {
        let case = offering(sending(20, 5), 0xE0 | value);
        cases.push(corner("S18", "each plain code of attribute 111", case));
    }
    for code in [0x20, 0x21, 0x3F, 0x40, 0x46, 0x5F, 0x6E, 0x6F, 0x7F, 0x80, 0xBF, 0xC0, 0xDF] {
        cases.push(corner("S8", "the edges of the carried list", offering(sending(31, 0), code)));
    }
    cases
}

fn states_out_of_range() -> Vec<Corner> {
    let base = sending(20, 5);
    let states = [
        ("in force of the same width, not the same value", SenderState { in_force: 25, ..base }),
        ("in force where chosen is off", SenderState { chosen: 31, ..base }),
        ("chosen overlaps data", SenderState { data: 8, ..base }),
        ("chosen overlaps data while muted", SenderState { data: 14, ..silent(11, 0) }),
        ("audio [0]", SenderState { chosen: 0, in_force: 0, ..base }),
        ("in force [0]", SenderState { in_force: 0, ..base }),
        ("audio unlisted", SenderState { chosen: 1, in_force: 1, ..base }),
        ("audio over 31", SenderState { chosen: 200, in_force: 200, ..base }),
        ("audio 52, which is 20 in five bits", SenderState { chosen: 52, in_force: 52, ..base }),
        ("data unlisted", SenderState { data: 15, ..sending(31, 0) }),
        ("data over 31", SenderState { data: 255, ..sending(31, 0) }),
        ("block 0", SenderState { block: 0, ..base }),
        ("block 9", SenderState { block: 9, ..base }),
        ("block 255", SenderState { block: 255, ..base }),
        ("remainder 16", SenderState { remainder: 16, ..base }),
        ("remainder 99", SenderState { remainder: 99, ..base }),
    ];
    let in_range = SenderState { remainder: 15, block: 8, ..base };
    let mut cases: Vec<Corner> = states.into_iter().map(|(about, state)| corner("S20", about, call(state))).collect();
    cases.push(corner("S20", "the largest numbers in range", call(in_range)));
    cases.push(corner("S20", "out of range and an item due", call(with_item_due(SenderState { block: 0, ..base }))));
    cases
}

fn service_bits() -> Vec<Corner> {
    let mut cases = Vec::new();
    for block in 1..=8 {
        for t in [false, true] {
            let flags = Flags { a: !t, e: t, t };
            let state = SenderState { block, ..sending(31, 0) };
            let case = SenderCase { flags, ..call(state) };
            cases.push(corner("S23", "T shows in block 8 alone, A and E in all", case));
        }
    }
    cases
}

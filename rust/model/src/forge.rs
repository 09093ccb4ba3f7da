//! States, line blocks and recordings made to order, for cases and tests.

use crate::bas;
use crate::bits;
use crate::codes::{Mode, AUDIO_OFF};
use crate::corners::case::{Case, ReaderCase, SenderCase, WalkCase};
use crate::corners::Corner;
use crate::crc::crc4;
use crate::frame::{Block, Half, BLOCK_OCTETS, DATA_OCTETS, VOICE_OCTETS};
use crate::random::Random;
use crate::reader::ReaderState;
use crate::sender::SenderState;
use crate::service::{self, Flags, MULTIFRAME_PATTERN};

/// Octets without any pattern that a wrong cut could hide in, always the same for the same `kind`.
pub fn filler(length: usize, kind: u64) -> Vec<u8> {
    Random::new(kind).octets(length)
}

/// A named corner case.
pub fn named(id: &'static str, about: &str, case: Case) -> Corner {
    Corner { id, about: about.to_string(), case }
}

/// A mode of two values.
pub fn mode(audio: u8, data: u8) -> Mode {
    Mode { audio, data }
}

/// The sender's state in which `audio` is chosen and in force beside `data`.
pub fn sending(audio: u8, data: u8) -> SenderState {
    SenderState { chosen: audio, in_force: audio, data, block: 3, remainder: 9, ..SenderState::FRESH }
}

/// The sender's state in which `audio` is chosen, but muted or not yet opened, beside `data`.
pub fn silent(audio: u8, data: u8) -> SenderState {
    SenderState { in_force: AUDIO_OFF, ..sending(audio, data) }
}

/// A sending call with 1F offered, nothing set, and buffers whose octets can all be told apart.
pub fn call(state: SenderState) -> SenderCase {
    SenderCase {
        state,
        mute: false,
        offered: 0x1F,
        flags: Flags::default(),
        voice: filler(VOICE_OCTETS, 1),
        data: filler(DATA_OCTETS, 2),
        line: vec![0xA5; BLOCK_OCTETS],
    }
}

/// The first bits that a reader keeps when block `block` is next and all before it came as sent.
pub fn first_bits_before(block: u8) -> [bool; 6] {
    let rows = service::rows(Flags::default(), 0);
    let odd_frame = |blocks_ago: usize| (2 * usize::from(block) + 15 - 2 * blocks_ago) % 16;
    std::array::from_fn(|index| rows[odd_frame(6 - index)][0])
}

/// A reader's state with a known place, in step with a sender, its block before having left remainder 9.
pub fn reading(block: u8, mode: Mode) -> ReaderState {
    ReaderState {
        block: Some(block),
        first_bits: first_bits_before(block),
        before: true,
        remainder: 9,
        ..ReaderState::fresh_with(mode)
    }
}

/// A line block to be read.
#[derive(Clone, Debug)]
pub struct Line {
    /// Its 160 octets.
    pub octets: Vec<u8>,
}

impl Line {
    /// Block `block` of 8 with `code` as its word and 9 in its C bits; the rest is filler.
    pub fn new(block: u8, code: u8) -> Line {
        // This filler has ones and zeros even in the six places of data [1].
        Line::over(filler(BLOCK_OCTETS, 12), block, code)
    }

    /// The same over other octets.
    pub fn over(octets: Vec<u8>, block: u8, code: u8) -> Line {
        let mut line = Line { octets };
        for (half, frame) in [(Half::Even, 2 * block - 2), (Half::Odd, 2 * block - 1)] {
            for number in 1..=8 {
                let bit = service::bit(frame.into(), number, Flags::default(), 9);
                line.set(half, number, bit);
            }
        }
        line.word(bas::sent(code))
    }

    /// Puts a word into SC bits 9 to 16, in the order of the line.
    pub fn word(mut self, word: [u8; 2]) -> Line {
        for (half, octet) in [(Half::Even, word[0]), (Half::Odd, word[1])] {
            for number in 1..=8 {
                self.set(half, 8 + number, bits::bit(octet, number));
            }
        }
        self
    }

    /// Sets the odd frame's first bit.
    pub fn first_bit(mut self, bit: bool) -> Line {
        self.set(Half::Odd, 1, bit);
        self
    }

    /// Sets C1 to C4.
    pub fn c_bits(mut self, remainder: u8) -> Line {
        for number in 5..=8 {
            let bit = remainder >> (8 - number) & 1 == 1;
            self.set(Half::Odd, number, bit);
        }
        self
    }

    /// The remainder that the next block has to carry.
    pub fn remainder(&self) -> u8 {
        crc4(&Block::from_octets(&self.octets))
    }

    /// Makes the first `count` bits of the alignment word wrong.
    pub fn wrong(mut self, count: usize) -> Line {
        for (half, number, value) in service::alignment_word().take(count) {
            self.set(half, number, !value);
        }
        self
    }

    /// Sets bit `number` of one frame's service channel.
    pub fn set(&mut self, half: Half, number: usize, bit: bool) {
        let index = match half {
            Half::Even => number - 1,
            Half::Odd => 80 + number - 1,
        };
        self.octets[index] = self.octets[index] & 0xFE | u8::from(bit);
    }
}

/// A reading call with buffers that hold something at entry.
pub fn take(state: ReaderState, line: Line) -> ReaderCase {
    ReaderCase { state, line: line.octets, voice: vec![0xA5; VOICE_OCTETS], data: vec![0x5A; DATA_OCTETS] }
}

/// A step of a walk with buffers that hold something at entry.
pub fn walk(recording: Vec<u8>, place: usize, state: ReaderState) -> WalkCase {
    WalkCase {
        recording,
        place,
        searching: false,
        state,
        voice: vec![0xA5; VOICE_OCTETS],
        data: vec![0x5A; DATA_OCTETS],
    }
}

/// The blocks of a session from `state` that offers `codes` one after another, unmuted, refused calls left out.
pub fn session(mut state: SenderState, codes: &[u8]) -> Vec<u8> {
    let mut recording = Vec::new();
    for &offered in codes {
        let case = SenderCase { offered, ..call(state) };
        if let Ok((next, line, _)) = case.run(crate::fault::Fault::None) {
            state = next;
            recording.extend(line);
        }
    }
    recording
}

/// A session of `blocks` blocks in which 1F is offered throughout.
pub fn idle(blocks: usize) -> Vec<u8> {
    session(SenderState::FRESH, &vec![0x1F; blocks])
}

/// Turns a whole block of a recording into one with a wrong alignment word: its odd frame's bit 2 becomes 0.
pub fn spoil(recording: &mut [u8], place: usize) {
    recording[place + 81] &= 0xFE;
}

/// The pattern with its first bit missing, so that one more right bit completes it.
pub fn pattern_but_last() -> [bool; 6] {
    let mut bits = MULTIFRAME_PATTERN;
    bits.rotate_right(1);
    bits
}

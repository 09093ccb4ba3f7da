//! Recorded sessions made to order, and what a line or another far end can do to them.

use super::send;
use model::bas;
use model::forge::Line;
use model::frame::{Half, BLOCK_OCTETS, DATA_OCTETS, VOICE_OCTETS};
use model::sender::{self, SenderState};
use model::service;

/// The blocks of one session, one after another. Blocks are counted from 1.
pub struct Tape {
    /// All octets.
    pub octets: Vec<u8>,
}

impl Tape {
    /// A fresh sender's session with the calls of a script, written as for `model send`.
    /// Voice and data are other octets in every call and for every seed.
    pub fn new(seed: usize, script: &str) -> Tape {
        Tape::with_data(seed, script, |call| octets(DATA_OCTETS, |i| (i * 13 + call * 17 + seed * 29 + 5) % 241))
    }

    /// The same with data octets by the call's number, from 1.
    pub fn with_data(seed: usize, script: &str, data: impl Fn(usize) -> Vec<u8>) -> Tape {
        let offers = send::offers(script).expect("a script of calls");
        let mut state = SenderState::FRESH;
        let mut recording = Vec::new();
        for (offer, call) in offers.iter().zip(1..) {
            let voice = octets(VOICE_OCTETS, |i| (i * 7 + call * 31 + seed * 57 + 3) % 251);
            let mut line = [0; BLOCK_OCTETS];
            // A refused call would move all blocks after it, and what is done to them would miss.
            sender::send(&mut state, &send::call(offer, &voice, &data(call)), &mut line).expect("no call is refused");
            recording.extend(line);
        }
        Tape { octets: recording }
    }

    /// Turns bits of a block's alignment word, which has the bits 1 to 8.
    pub fn wrong(self, block: usize, bits: &[usize]) -> Tape {
        let word: Vec<(Half, usize, bool)> = service::alignment_word().collect();
        bits.iter().map(|bit| word[bit - 1]).fold(self, |tape, (half, number, _)| tape.turn(block, half, number))
    }

    /// Turns one bit of the alignment words of some blocks in a row.
    pub fn wrong_from(self, first: usize, blocks: usize) -> Tape {
        (first..first + blocks).fold(self, |tape, block| tape.wrong(block, &[block % 8 + 1]))
    }

    /// Turns bits of a block's BAS word, which has the bits 1 to 16 in the order of the line.
    pub fn blur(self, block: usize, bits: &[usize]) -> Tape {
        bits.iter().fold(self, |tape, &bit| match bit {
            1..=8 => tape.turn(block, Half::Even, 8 + bit),
            _ => tape.turn(block, Half::Odd, bit),
        })
    }

    /// Turns the odd-frame first bits of some blocks.
    pub fn miss(self, blocks: &[usize]) -> Tape {
        blocks.iter().fold(self, |tape, &block| tape.turn(block, Half::Odd, 1))
    }

    /// Puts words from block `first` on in the place of those sent, as a far end with other words would have sent
    /// them: the C bits fit.
    pub fn say(self, first: usize, codes: &[u8]) -> Tape {
        codes.iter().zip(first..).fold(self, |tape, (&code, block)| tape.say_one(block, code))
    }

    fn say_one(mut self, block: usize, code: u8) -> Tape {
        let line = Line { octets: self.block(block).to_vec() }.word(bas::sent(code));
        self.block(block).copy_from_slice(&line.octets);
        // C bits do not enter the sum, so the blocks after the next one fit as they are.
        if block * BLOCK_OCTETS < self.octets.len() {
            let next = Line { octets: self.block(block + 1).to_vec() }.c_bits(line.remainder());
            self.block(block + 1).copy_from_slice(&next.octets);
        }
        self
    }

    /// Drops some octets from `place` on.
    pub fn drop(mut self, place: usize, count: usize) -> Tape {
        self.octets.drain(place..place + count);
        self
    }

    /// Puts octets in front of the one at `place`.
    pub fn insert(mut self, place: usize, octets: &[u8]) -> Tape {
        self.octets.splice(place..place, octets.iter().copied());
        self
    }

    /// Leaves out what is no whole block at the end.
    pub fn whole_blocks(mut self) -> Tape {
        self.octets.truncate(self.octets.len() / BLOCK_OCTETS * BLOCK_OCTETS);
        self
    }

    fn block(&mut self, block: usize) -> &mut [u8] {
        &mut self.octets[(block - 1) * BLOCK_OCTETS..block * BLOCK_OCTETS]
    }

    /// Turns bit `number` of one frame's service channel.
    fn turn(mut self, block: usize, half: Half, number: usize) -> Tape {
        let index = match half {
            Half::Even => number - 1,
            Half::Odd => 80 + number - 1,
        };
        self.block(block)[index] ^= 1;
        self
    }
}

/// Octets by a rule, of which the low eight bits count.
pub fn octets(length: usize, rule: impl Fn(usize) -> usize) -> Vec<u8> {
    (0..length).map(|i| rule(i) as u8).collect()
}

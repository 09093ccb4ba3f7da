//! Recordings to search and to list.

use std::hint::black_box;

use model::random::Random;

use crate::contestants::{self, Contestant};
use crate::forms::{self, Offer, Sender, LINE, LSD, VOICE};
use crate::inputs::CODE;

/// The first bits of a block's SC that the search asks for.
const WORD: [u8; 7] = [0, 0, 1, 1, 0, 1, 1];

/// Zeros that were written: memory that never was is one page again and again, which no recording is.
pub fn zeros(length: usize) -> Vec<u8> {
    let mut recording = black_box(vec![1; length]);
    recording.fill(0);
    recording
}

/// Random octets; where alignment happens to stand, a bit is turned.
pub fn without_place(length: usize) -> Vec<u8> {
    let searcher = contestants::yardstick();
    let mut recording = Random::new(221).octets(length);
    let mut start = 0;
    loop {
        let answer = searcher.search(&recording, start);
        if answer.number != 0 {
            return recording;
        }
        start = answer.place;
        recording[start + 81] ^= 1;
    }
}

/// The word as often as it can stand, every seven octets: octet 81 is right too, but the second word never is.
pub fn near_misses(length: usize) -> Vec<u8> {
    let octets = Random::new(222).octets(length).into_iter();
    octets.zip(WORD.into_iter().cycle()).map(|(octet, bit)| octet & 0xFE | bit).collect()
}

/// A session of so many blocks from fresh on, as the model frames it: six quiet ones, by which a reader finds its
/// place, then the codes, then quiet ones.
pub fn session(blocks: usize, codes: &[u8]) -> Vec<u8> {
    let framer = contestants::yardstick();
    let mut random = Random::new(blocks as u64);
    let mut state = Sender { chosen: 31, mode: forms::ALL_OFF, block: 1, due: 0, remainder: 0 };
    let mut recording = vec![0; blocks * LINE];
    for (count, line) in recording.chunks_exact_mut(LINE).enumerate() {
        let code = count.checked_sub(6).and_then(|index| codes.get(index)).copied().unwrap_or(CODE);
        let (voice, lsd) = (random.octets(VOICE), random.octets(LSD));
        let offer = Offer { mute: false, code, flags: [false; 3], voice: &voice, lsd: &lsd };
        framer.send(&mut state, &offer, line);
    }
    recording
}

/// Audio of six bits and data in bit 7.
pub fn voice_and_data(blocks: usize) -> Vec<u8> {
    session(blocks, &[0x14, 0x65])
}

/// The same with three wrong alignment words in a row, again and again.
pub fn with_losses(blocks: usize) -> Vec<u8> {
    let mut recording = voice_and_data(blocks);
    for (count, line) in recording.chunks_exact_mut(LINE).enumerate() {
        if (17..20).contains(&(count % 20)) {
            line[81] ^= 1;
        }
    }
    recording
}

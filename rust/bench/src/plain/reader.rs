//! Reading a block (01, "Reading a block").

use super::bits::BitWriter;
use super::{bas, codes, crc, slots};
use crate::forms::{self, BlockAnswer, Mode, ReadAnswer, Reader, LINE, LSD, VOICE};

const PATTERN: u8 = 0b00_1011;
const WAITING: u8 = 0;
const READ: u8 = 1;
const LOST: u8 = 2;

/// Reads one block and moves the state on, or refuses.
pub fn read(state: &mut Reader, line: &[u8], voice: &mut [u8], lsd: &mut [u8]) -> ReadAnswer {
    if let Some(number) = refusal(state, line, voice, lsd) {
        return forms::read_refused(number);
    }
    let (next, block) = step(*state, line);
    if block.standing == READ {
        sort(state.mode, line, voice, lsd);
    } else {
        voice.fill(0);
        lsd.fill(0);
    }
    *state = next;
    forms::block(block)
}

/// Refusal 1 for a reader's state.
pub fn in_range(state: &Reader) -> bool {
    codes::in_range(state.mode)
        && codes::in_range(state.kept)
        && state.wrong <= 2
        && state.misses <= 2
        && state.block <= 8
        && state.remainder <= 15
}

fn refusal(state: &Reader, line: &[u8], voice: &[u8], lsd: &[u8]) -> Option<u8> {
    if !in_range(state) {
        Some(1)
    } else if line.len() != LINE {
        Some(2)
    } else if voice.len() != VOICE {
        Some(3)
    } else if lsd.len() != LSD {
        Some(4)
    } else {
        None
    }
}

/// The last bits of eight octets.
fn service_octet(octets: &[u8]) -> u8 {
    octets.iter().take(8).fold(0, |sum, octet| sum << 1 | octet & 1)
}

fn step(state: Reader, line: &[u8]) -> (Reader, BlockAnswer) {
    let (even, odd) = (service_octet(line), service_octet(&line[80..]));
    let wrong_bits = ((even ^ 0b0001_1011) & 0x7F).count_ones() + (!odd >> 6 & 1) as u32;
    let mut next = state;
    if state.wrong == 0 {
        next.kept = state.mode;
    }
    next.wrong = if wrong_bits == 0 { 0 } else { state.wrong + 1 };
    if next.wrong == 3 {
        return (forms::fresh_with(next.kept), BlockAnswer { standing: LOST, ..forms::NO_BLOCK });
    }
    let verdict = match (state.before, odd & 0xF == state.remainder) {
        (0, _) => 0,
        (_, true) => 1,
        (_, false) => 2,
    };
    next.before = 1;
    next.remainder = crc::of_block(line);
    next.slot = slots::tidy(state.slot);
    let mut answer = BlockAnswer { standing: WAITING, verdict, ..forms::NO_BLOCK };
    if state.block != 0 {
        take_word(&mut next, &mut answer, line, wrong_bits);
    }
    follow_multiframe(&mut next, odd >> 7);
    if next.wrong == 0 {
        next.kept = next.mode;
    }
    (next, answer)
}

fn take_word(next: &mut Reader, answer: &mut BlockAnswer, line: &[u8], wrong_bits: u32) {
    let code = match wrong_bits {
        0..=2 => bas::read([service_octet(&line[8..]), service_octet(&line[88..])]),
        _ => None,
    };
    let taken = slots::take(next.slot, next.mode, code);
    next.slot = taken.slot;
    next.mode = taken.mode;
    answer.standing = READ;
    answer.reading = taken.reading;
    answer.code = code.unwrap_or(0);
}

fn follow_multiframe(next: &mut Reader, first_bit: u8) {
    next.firsts = (next.firsts << 1 | first_bit) & 0x3F;
    let right = next.firsts == PATTERN;
    match next.block {
        0 if right => next.block = 7,
        0 => {}
        6 => compare_pattern(next, right),
        number => next.block = number % 8 + 1,
    }
}

fn compare_pattern(next: &mut Reader, right: bool) {
    next.block = 7;
    next.misses = if right { 0 } else { next.misses + 1 };
    if next.misses == 3 {
        next.misses = 0;
        next.block = 0;
        next.slot = forms::PLAIN_DUE;
    }
}

fn sort(mode: Mode, line: &[u8], voice: &mut [u8], lsd: &mut [u8]) {
    let layout = codes::layout(mode);
    let mut voice = BitWriter::new(voice);
    let mut lsd = BitWriter::new(lsd);
    for frame in line.chunks_exact(LINE / 2) {
        for (index, &octet) in frame.iter().enumerate() {
            voice.put(layout.voice_bits, (u16::from(octet) >> (8 - layout.voice_bits)) as u8);
            lsd.put(layout.data_bits, octet >> 1);
            if (layout.first..layout.end).contains(&index) {
                lsd.put(1, octet);
            }
        }
    }
    voice.finish();
    lsd.finish();
}

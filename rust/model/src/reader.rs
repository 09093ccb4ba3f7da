//! The reader's state and its step (01, "Reading a block").

use crate::bas;
use crate::bits;
use crate::codes::Mode;
use crate::crc;
use crate::fault::Fault;
use crate::frame::{Block, Half, Owner, BLOCK_OCTETS, DATA_OCTETS, VOICE_OCTETS};
use crate::refusal::{when, Refusal};
use crate::service::{self, MULTIFRAME_PATTERN};
use crate::slots::{self, Due, Reading};

/// What a reader keeps between blocks. Any value can stand in it; refusal 1 judges.
#[derive(Clone, Copy, Debug, PartialEq, Eq)]
pub struct ReaderState {
    /// The mode in force.
    pub mode: Mode,
    /// The mode that a loss goes back to; the mode in force while no run of wrong words is under way (R26).
    pub kept: Mode,
    /// Wrong alignment words in a row.
    pub wrong_words: u8,
    /// The number of the next block, 1 to 8, or unknown.
    pub block: Option<u8>,
    /// Wrong multiframe patterns in a row.
    pub wrong_patterns: u8,
    /// The last six odd-frame first bits since alignment, the oldest first. Bits that never came are ones:
    /// the pattern begins with 0, so that fewer than six cannot match it (R18, R19).
    pub first_bits: [bool; 6],
    /// What the next word is.
    pub due: Due,
    /// Whether there is a block before.
    pub before: bool,
    /// The remainder of the block before. Judged for its range even where there is none (R28).
    pub remainder: u8,
}

impl ReaderState {
    /// The state that a session begins with.
    pub const FRESH: ReaderState = ReaderState::fresh_with(Mode::OFF);

    /// Fresh but for the mode.
    pub const fn fresh_with(mode: Mode) -> ReaderState {
        ReaderState {
            mode,
            kept: mode,
            wrong_words: 0,
            block: None,
            wrong_patterns: 0,
            first_bits: [true; 6],
            due: Due::Nothing,
            before: false,
            remainder: 0,
        }
    }

    /// Whether refusal 1 is not given.
    pub fn in_range(&self) -> bool {
        self.mode.in_range()
            && self.kept.in_range()
            && self.wrong_words <= 2
            && self.wrong_patterns <= 2
            && self.remainder <= 15
            && self.block.is_none_or(|block| (1..=8).contains(&block))
            && !matches!(self.due, Due::Message(256..))
    }
}

/// How a block was taken.
#[derive(Clone, Copy, Debug, PartialEq, Eq)]
pub enum Standing {
    /// Its place in the multiframe was unknown.
    Waiting,
    /// Its streams and word were handed out.
    Read,
    /// Its alignment word was the third wrong one in a row.
    Lost,
}

/// The judgement on the block before.
#[derive(Clone, Copy, Debug, PartialEq, Eq)]
pub enum Verdict {
    /// There is no block before, or the block is lost.
    None,
    /// C1 to C4 equal the remainder of the block before.
    Good,
    /// They do not.
    Bad,
}

/// The answer to one block.
#[derive(Clone, Copy, Debug, PartialEq, Eq)]
pub struct BlockAnswer {
    /// Waiting, read or lost.
    pub standing: Standing,
    /// The CRC verdict.
    pub verdict: Verdict,
    /// The reading of the BAS word.
    pub word: Reading,
}

/// Reads one block into the lent buffers and moves the state on, or refuses and changes nothing.
pub fn read(state: &mut ReaderState, line: &[u8], voice: &mut [u8], data: &mut [u8]) -> Result<BlockAnswer, Refusal> {
    read_with(Fault::None, state, line, voice, data)
}

pub(crate) fn read_with(
    fault: Fault,
    state: &mut ReaderState,
    line: &[u8],
    voice: &mut [u8],
    data: &mut [u8],
) -> Result<BlockAnswer, Refusal> {
    when(!state.in_range(), Refusal::State)?;
    when(line.len() != BLOCK_OCTETS, Refusal::LineLength)?;
    when(voice.len() != VOICE_OCTETS, Refusal::VoiceLength)?;
    when(data.len() != DATA_OCTETS, Refusal::DataLength)?;
    let block = Block::from_octets(line);
    let (next, answer, cut_by) = step(fault, state, &block);
    // Without a mode to cut by (waiting, lost) no place has an owner and all octets are zero.
    let cut_by = cut_by.unwrap_or(Mode::OFF);
    voice.copy_from_slice(&block.stream(cut_by, Owner::Voice, VOICE_OCTETS));
    data.copy_from_slice(&block.stream(cut_by, Owner::Data, DATA_OCTETS));
    *state = next;
    Ok(answer)
}

/// The state after a block, the answer, and the mode that cuts its streams where they are handed out.
fn step(fault: Fault, state: &ReaderState, block: &Block) -> (ReaderState, BlockAnswer, Option<Mode>) {
    let wrong_bits = wrong_alignment_bits(block);
    let mut next = count_wrong_words(state, wrong_bits);
    if next.wrong_words == 3 {
        return lost(fault, &next);
    }
    let verdict = verdict(state, block);
    next.before = true;
    next.remainder = crc::crc4_with(fault, block);

    let (standing, word, cut_by) = match state.block {
        None => (Standing::Waiting, Reading::NotRead, None),
        Some(_) => {
            let word = take_word(fault, &mut next, block, wrong_bits);
            let at_once = fault == Fault::ActsAtOnce;
            let cut_by = if at_once { next.mode } else { state.mode };
            (Standing::Read, word, Some(cut_by))
        }
    };
    follow_multiframe(&mut next, block);
    if next.wrong_words == 0 {
        next.kept = next.mode;
    }
    let answer = BlockAnswer { standing, verdict, word };
    (next, answer, cut_by)
}

/// How many of the eight fixed bits are wrong.
fn wrong_alignment_bits(block: &Block) -> usize {
    service::alignment_word().filter(|&(half, number, value)| block.service_channel(half, number) != value).count()
}

/// Step 1. The mode to go back to is the one that the first wrong block finds (R3).
fn count_wrong_words(state: &ReaderState, wrong_bits: usize) -> ReaderState {
    ReaderState {
        kept: match state.wrong_words {
            0 => state.mode,
            _ => state.kept,
        },
        wrong_words: match wrong_bits {
            0 => 0,
            _ => state.wrong_words + 1,
        },
        ..*state
    }
}

fn lost(fault: Fault, state: &ReaderState) -> (ReaderState, BlockAnswer, Option<Mode>) {
    let mode = match fault {
        Fault::KeepsLearnedMode => state.mode,
        _ => state.kept,
    };
    let answer = BlockAnswer { standing: Standing::Lost, verdict: Verdict::None, word: Reading::NotRead };
    (ReaderState::fresh_with(mode), answer, None)
}

/// Step 2.
fn verdict(state: &ReaderState, block: &Block) -> Verdict {
    if !state.before {
        Verdict::None
    } else if crc::carried_remainder(block) == state.remainder {
        Verdict::Good
    } else {
        Verdict::Bad
    }
}

/// The word of step 3. It fills its slot even where it is unreadable (R10).
fn take_word(fault: Fault, next: &mut ReaderState, block: &Block, wrong_bits: usize) -> Reading {
    let code = if wrong_bits <= 2 {
        bas::read_with(fault, [bas_octet(block, Half::Even), bas_octet(block, Half::Odd)])
    } else {
        None
    };
    let (reading, due, mode) = slots::take(next.due, next.mode, code);
    next.due = due;
    next.mode = mode;
    reading
}

fn bas_octet(block: &Block, half: Half) -> u8 {
    let bits: Vec<bool> = (9..=16).map(|number| block.service_channel(half, number)).collect();
    bits::number(&bits) as u8
}

/// Step 4. The bits of wrong blocks count like all others (R8).
fn follow_multiframe(next: &mut ReaderState, block: &Block) {
    next.first_bits.rotate_left(1);
    next.first_bits[5] = block.service_channel(Half::Odd, 1);
    let right = next.first_bits == MULTIFRAME_PATTERN;
    match next.block {
        None if right => next.block = Some(7),
        None => {}
        Some(6) => {
            next.block = Some(7);
            compare_pattern(next, right);
        }
        Some(number) => next.block = Some(number % 8 + 1),
    }
}

/// The mode outlives the loss of the place; a word that was due does not (R20).
fn compare_pattern(next: &mut ReaderState, right: bool) {
    next.wrong_patterns = if right { 0 } else { next.wrong_patterns + 1 };
    if next.wrong_patterns == 3 {
        next.wrong_patterns = 0;
        next.block = None;
        next.due = Due::Nothing;
    }
}

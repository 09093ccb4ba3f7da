//! Finding alignment in a recording, and walking over it block by block (01, "Finding alignment").

use crate::bits;
use crate::fault::Fault;
use crate::frame::{Half, BLOCK_OCTETS, DATA_OCTETS, VOICE_OCTETS};
use crate::reader::{self, BlockAnswer, ReaderState, Standing};
use crate::refusal::{when, Refusal};
use crate::service;

/// The most octets that a recording may have.
pub const MOST_OCTETS: usize = 65_536;

/// The octets that a search must see from a place on: a block and the next one's first eight.
pub const SEARCH_OCTETS: usize = BLOCK_OCTETS + 8;

/// The smallest place from `start` on where alignment stands, counted from the recording's first octet (W7).
pub fn search(recording: &[u8], start: usize) -> Result<usize, Refusal> {
    when(recording.len() > MOST_OCTETS, Refusal::Recording)?;
    let seen = recording.len().saturating_sub(start);
    when(seen < SEARCH_OCTETS, Refusal::Recording)?;
    (start..=recording.len() - SEARCH_OCTETS).find(|&place| aligned(recording, place)).ok_or(Refusal::NoPlace)
}

/// Whether a block's alignment word stands at `place`, and the next block's even part of one after it.
fn aligned(recording: &[u8], place: usize) -> bool {
    let stands = |block_start: usize, (half, number, value): (Half, usize, bool)| {
        let frame_start = match half {
            Half::Even => block_start,
            Half::Odd => block_start + 80,
        };
        bits::bit(recording[frame_start + number - 1], 8) == value
    };
    service::alignment_word().all(|bit| stands(place, bit))
        && service::alignment_word()
            .filter(|&(half, ..)| half == Half::Even)
            .all(|bit| stands(place + BLOCK_OCTETS, bit))
}

/// A recording with a place in it.
#[derive(Clone, Copy, Debug, PartialEq, Eq)]
pub struct Walk<'a> {
    /// The lent recording.
    pub recording: &'a [u8],
    /// The octet where the next step begins, from 0.
    pub place: usize,
    /// Whether the block before was lost, so that the next step searches (W1).
    pub searching: bool,
}

/// What a step of a walk answers.
#[derive(Clone, Copy, Debug, PartialEq, Eq)]
pub enum Step {
    /// A block was taken; the walk stands after it.
    Block(BlockAnswer),
    /// Alignment was found; the walk stands there.
    Place(usize),
    /// So many octets are left; the walk has not moved.
    End(usize),
}

impl<'a> Walk<'a> {
    /// A walk that begins to read at `place`.
    pub fn new(recording: &'a [u8], place: usize) -> Walk<'a> {
        Walk { recording, place, searching: false }
    }

    /// One step: a block, a new place or the end; or a refusal, which changes nothing.
    pub fn step(&mut self, state: &mut ReaderState, voice: &mut [u8], data: &mut [u8]) -> Result<Step, Refusal> {
        self.step_with(Fault::None, state, voice, data)
    }

    pub(crate) fn step_with(
        &mut self,
        fault: Fault,
        state: &mut ReaderState,
        voice: &mut [u8],
        data: &mut [u8],
    ) -> Result<Step, Refusal> {
        // The rows hold for steps that read no block, too (W2).
        when(!state.in_range(), Refusal::State)?;
        when(voice.len() != VOICE_OCTETS, Refusal::VoiceLength)?;
        when(data.len() != DATA_OCTETS, Refusal::DataLength)?;
        let length = self.recording.len();
        when(length > MOST_OCTETS, Refusal::Recording)?;
        when(self.place > length, Refusal::Recording)?;
        if self.searching {
            return Ok(self.search_on());
        }
        let Some(line) = self.recording[self.place..].get(..BLOCK_OCTETS) else {
            return Ok(Step::End(length - self.place));
        };
        let answer = reader::read_with(fault, state, line, voice, data)?;
        self.place += BLOCK_OCTETS;
        self.searching = answer.standing == Standing::Lost;
        Ok(Step::Block(answer))
    }

    /// The step after a lost block; whatever refuses the search, it is the end (W5, W6).
    fn search_on(&mut self) -> Step {
        match search(self.recording, self.place) {
            Ok(place) => {
                self.place = place;
                self.searching = false;
                Step::Place(place)
            }
            Err(_) => Step::End(self.recording.len() - self.place),
        }
    }
}

//! Recordings of a line: where their blocks begin, and a walk from block to block.

use std::iter::FusedIterator;

use delampuk_sys::{OCTETS_SAVED_WALK, STEP_BLOCK, STEP_END, STEP_PLACE};

use crate::ffi;
use crate::reader::{Block, Reader};
use crate::refusal::{unknown, Refusal};
use crate::saved::{loaded, saved, NoSavedForm};
use crate::{LSD, VOICE};

/// The first octet from `start` on where a block begins, counted from the recording's own first octet.
///
/// # Errors
///
/// Refusal 9 for a recording of more than [`RECORDING_MAX`](crate::RECORDING_MAX) octets, or where fewer than 168 are
/// left from `start` on; 10 where no block begins.
pub fn search(recording: &[u8], start: usize) -> Result<usize, Refusal> {
    let answer = ffi::search(recording, start);
    Refusal::unless_zero(answer.number)?;
    Ok(answer.place)
}

/// Writes the listing of a recording, lines of ASCII with a newline after each, to the front of `text`, and answers its
/// length. [`LISTING_MAX`](crate::LISTING_MAX) octets are room enough; `None` where it does not fit, and then `text` holds
/// what does. A recording that cannot be searched has a listing too: `none` and the refusal's number.
pub fn list(recording: &[u8], text: &mut [u8]) -> Option<usize> {
    let length = ffi::list(recording, text);
    (length <= text.len()).then_some(length)
}

/// What a step of a walk came to.
#[derive(Clone, Copy, Debug, PartialEq, Eq, Hash)]
pub enum Step {
    /// A block was taken, and the walk stands after it.
    Block(Block),
    /// After a lost block, blocks begin again at this octet of the recording, and the walk stands there.
    Place(usize),
    /// Nothing more can be read: so many octets are left. The walk has not moved.
    End(usize),
}

/// A walk over a recording, one block a step, with the reader that takes the blocks.
///
/// It is walked by [`Walk::step`], or iterated over: each step comes with its streams, and the last is
/// [`Step::End`] or a refusal.
#[derive(Clone, Debug, PartialEq, Eq)]
pub struct Walk<'a> {
    recording: &'a [u8],
    state: ffi::Walk,
}

impl<'a> Walk<'a> {
    /// The length of a saved walk.
    pub const OCTETS: usize = OCTETS_SAVED_WALK;

    /// A walk from the first place where a block begins, with a new reader.
    ///
    /// # Errors
    ///
    /// Refusals 9 and 10, as [`search`] has them.
    pub fn new(recording: &'a [u8]) -> Result<Walk<'a>, Refusal> {
        let place = search(recording, 0)?;
        Ok(Walk::from_place(recording, place, Reader::new()))
    }

    /// A walk from any place on, with a reader that has perhaps read before.
    pub fn from_place(recording: &'a [u8], place: usize, reader: Reader) -> Walk<'a> {
        let state = ffi::Walk { reader: reader.state, ..ffi::start_walk(place) };
        Walk { recording, state }
    }

    /// One step: the block at the place where the walk stands; after a lost one the next place where a block begins;
    /// or the end. Only a block moves the reader and writes `voice` and `lsd`, as [`Reader::read`] does.
    ///
    /// # Errors
    ///
    /// Refusals 1, 3, 4 and 9; the walk, `voice` and `lsd` are then as they were.
    pub fn step(&mut self, voice: &mut [u8], lsd: &mut [u8]) -> Result<Step, Refusal> {
        let answer = ffi::step(&mut self.state, self.recording, voice, lsd);
        Refusal::unless_zero(answer.number)?;
        match answer.kind {
            STEP_BLOCK => Ok(Step::Block(Block::from_answer(&answer.block))),
            STEP_PLACE => Ok(Step::Place(answer.value)),
            STEP_END => Ok(Step::End(answer.value)),
            kind => unknown("step", kind),
        }
    }

    /// The octet of the recording where the walk stands.
    pub fn place(&self) -> usize {
        self.state.place
    }

    /// The reader as the last block left it.
    pub fn reader(&self) -> Reader {
        Reader::from_state(self.state.reader)
    }

    /// The walk as octets, to be saved: the reader, whether a block was lost, and the place. Later versions load them
    /// too. The recording is not among them.
    pub fn save(&self) -> [u8; Walk::OCTETS] {
        saved(|octets| ffi::save_walk(&self.state, octets))
    }

    /// A walk over `recording` that this version or an earlier one has saved. Any octets are taken; its steps refuse
    /// with 1 where the reader is out of range, and with 9 where the place is.
    ///
    /// # Errors
    ///
    /// Where no saved walk has so many octets.
    pub fn load(recording: &'a [u8], saved: &[u8]) -> Result<Walk<'a>, NoSavedForm> {
        loaded(ffi::load_walk(saved), saved.len()).map(|state| Walk { recording, state })
    }
}

/// The streams that a step handed out: those of a block, or zeros where it read none.
#[derive(Clone, Debug, PartialEq, Eq)]
pub struct Streams {
    /// The voice.
    pub voice: [u8; VOICE],
    /// The data.
    pub lsd: [u8; LSD],
}

/// The steps of a walk, each with its streams.
#[derive(Clone, Debug)]
pub struct Steps<'a> {
    /// None after the last step.
    walk: Option<Walk<'a>>,
}

impl<'a> IntoIterator for Walk<'a> {
    type Item = Result<(Step, Streams), Refusal>;
    type IntoIter = Steps<'a>;

    fn into_iter(self) -> Steps<'a> {
        Steps { walk: Some(self) }
    }
}

impl Iterator for Steps<'_> {
    type Item = Result<(Step, Streams), Refusal>;

    fn next(&mut self) -> Option<Self::Item> {
        let mut walk = self.walk.take()?;
        let mut streams = Streams { voice: [0; VOICE], lsd: [0; LSD] };
        let step = walk.step(&mut streams.voice, &mut streams.lsd);
        if matches!(step, Ok(Step::Block(_) | Step::Place(_))) {
            self.walk = Some(walk);
        }
        Some(step.map(|step| (step, streams)))
    }
}

impl FusedIterator for Steps<'_> {}

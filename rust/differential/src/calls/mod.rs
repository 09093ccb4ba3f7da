//! The calls of `include/delampuk.h`: how each is asked of the server, how it is made in this process, what it
//! leaves, and what it has to leave by the model.
//!
//! `kept` says that no const buffer and nothing around the buffers changed. A refusal of the wrapper is a number
//! alone: what C finds beside it is asked of the server.

mod asking;
mod listing;
mod presets;
mod reading;
mod saving;
mod searching;
mod sending;
mod walking;

use std::fmt::Debug;
use std::io;

use model::reader::{BlockAnswer, ReaderState, Standing, Verdict};
use model::slots::Reading;

use crate::server::{Answer, Request};
use crate::smaller::Field;
use crate::states::{self, Reader};

pub use asking::{About, AboutLeft, Count, Explain, TellReader, TellSender};
pub use listing::{List, ListLeft};
pub use model::show::Octets;
pub use presets::{ReadPreset, WritePreset};
pub use reading::{Read, ReadLeft};
pub use saving::{Load, LoadLeft, Save, SaveLeft, State};
pub use searching::{Search, SearchLeft};
pub use sending::{Fresh, Send, SendLeft};
pub use walking::{StepLeft, WalkStep};

/// A call with all that it is given.
pub trait Call: Clone + Debug {
    /// What it leaves.
    type Left: PartialEq + Debug;

    /// Puts the request together.
    fn request(&self, request: &mut Request);

    /// Takes the answer apart.
    fn left(&self, answer: &mut Answer) -> io::Result<Self::Left>;

    /// Makes the call through the wrapper, and puts what it leaves as C does.
    fn linked(&self) -> Self::Left;

    /// What the call has to leave by the model.
    fn expected(&self) -> Self::Left;

    /// What the call is given, field by field, so that it can be made smaller.
    fn fields(&mut self) -> Vec<Field<'_>>;

    /// Names for what became of the call, by which a test can ask that its cases reach them all.
    fn outcome(_left: &Self::Left) -> Vec<String> {
        Vec::new()
    }
}

/// `struct delampuk_block_answer`: standing, verdict, reading, code.
pub type Block = [u8; 4];

/// What is said of a block where there is none: waiting, no verdict, not read.
const NO_BLOCK: Block = [0, 0, 6, 0];

/// A block's answer as the model has it.
fn by_model(answer: BlockAnswer) -> Block {
    let standing = match answer.standing {
        Standing::Waiting => 0,
        Standing::Read => 1,
        Standing::Lost => 2,
    };
    let verdict = match answer.verdict {
        Verdict::None => 0,
        Verdict::Good => 1,
        Verdict::Bad => 2,
    };
    let reading = match answer.word {
        Reading::Mended(_) => 0,
        Reading::Item(_) => 1,
        Reading::MessageWord(_) => 2,
        Reading::ForbiddenItem(_) => 3,
        Reading::NotFollowed(_) => 4,
        Reading::Unreadable => 5,
        Reading::NotRead => 6,
    };
    [standing, verdict, reading, answer.word.code().unwrap_or(0)]
}

/// A block's answer as the wrapper has it.
fn by_wrapper(block: delampuk::Block) -> Block {
    use delampuk::{Standing, Verdict, Word};

    let standing = match block.standing {
        Standing::Waiting => 0,
        Standing::Read => 1,
        Standing::Lost => 2,
    };
    let verdict = match block.verdict {
        Verdict::None => 0,
        Verdict::Good => 1,
        Verdict::Bad => 2,
    };
    let reading = match block.word {
        Word::Mended(_) => 0,
        Word::Item(_) => 1,
        Word::Message(_) => 2,
        Word::ForbiddenItem(_) => 3,
        Word::NotFollowed(_) => 4,
        Word::Unreadable => 5,
        Word::NotRead => 6,
    };
    [standing, verdict, reading, block.word.code().unwrap_or(0)]
}

fn left_by_block(state: &ReaderState) -> Reader {
    states::reader_octets(state).expect("a block leaves a state in range")
}

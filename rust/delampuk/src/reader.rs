//! Reading blocks.

use std::fmt;

use delampuk_sys::{
    OCTETS_SAVED_READER, READ_BLOCK, STANDING_LOST, STANDING_READ, STANDING_WAITING, VERDICT_BAD, VERDICT_GOOD,
    VERDICT_NONE, WORD_FORBIDDEN, WORD_ITEM, WORD_MENDED, WORD_MESSAGE, WORD_NOT_FOLLOWED, WORD_NOT_READ,
    WORD_UNREADABLE,
};

use crate::code::Hex;
use crate::ffi;
use crate::mode::{Due, Mode};
use crate::refusal::{unknown, Refusal};
use crate::saved::{loaded, saved, NoSavedForm};

/// How a block was taken.
#[derive(Clone, Copy, Debug, PartialEq, Eq, Hash)]
pub enum Standing {
    /// Its place among the eight blocks of a multiframe is not known yet: no stream is handed out, no word read.
    Waiting,
    /// Its streams and its word were handed out.
    Read,
    /// Alignment is lost: this was the third block in a row with a wrong alignment word.
    Lost,
}

/// What the CRC says of the block before.
#[derive(Clone, Copy, Debug, PartialEq, Eq, Hash)]
pub enum Verdict {
    /// Nothing: there is no block before, or this one is lost.
    None,
    /// It arrived as it was sent, as far as a CRC of four bits can tell.
    Good,
    /// It did not, or the CRC itself was damaged. This stops nothing.
    Bad,
}

/// The reading of a block's BAS word, with the code where there is one.
#[derive(Clone, Copy, PartialEq, Eq, Hash)]
pub enum Word {
    /// A plain word, after mending up to two bits. A command has been followed and takes hold in the next block.
    Mended(u8),
    /// The item that an escape before it asked for; no command, whatever its code.
    Item(u8),
    /// A word of a message, its length among them; no command.
    Message(u8),
    /// An item with attribute 111, which none may have.
    ForbiddenItem(u8),
    /// A command that this library does not carry; it changed nothing.
    NotFollowed(u8),
    /// No code is within two bits of it.
    Unreadable,
    /// The reader waits or has lost alignment.
    NotRead,
}

impl Word {
    /// The code, where one was read.
    pub fn code(self) -> Option<u8> {
        match self {
            Word::Mended(code)
            | Word::Item(code)
            | Word::Message(code)
            | Word::ForbiddenItem(code)
            | Word::NotFollowed(code) => Some(code),
            Word::Unreadable | Word::NotRead => None,
        }
    }
}

impl fmt::Debug for Word {
    fn fmt(&self, out: &mut fmt::Formatter) -> fmt::Result {
        let name = match self {
            Word::Mended(_) => "Mended",
            Word::Item(_) => "Item",
            Word::Message(_) => "Message",
            Word::ForbiddenItem(_) => "ForbiddenItem",
            Word::NotFollowed(_) => "NotFollowed",
            Word::Unreadable => "Unreadable",
            Word::NotRead => "NotRead",
        };
        match self.code() {
            Some(code) => out.debug_tuple(name).field(&Hex(code)).finish(),
            None => out.write_str(name),
        }
    }
}

/// What a reader says of a block.
#[derive(Clone, Copy, Debug, PartialEq, Eq, Hash)]
pub struct Block {
    /// Waiting, read or lost.
    pub standing: Standing,
    /// The CRC's verdict.
    pub verdict: Verdict,
    /// The reading of the BAS word.
    pub word: Word,
}

impl Block {
    pub(crate) fn from_answer(answer: &ffi::BlockAnswer) -> Block {
        let standing = match answer.standing {
            STANDING_WAITING => Standing::Waiting,
            STANDING_READ => Standing::Read,
            STANDING_LOST => Standing::Lost,
            number => unknown("standing", number),
        };
        let verdict = match answer.verdict {
            VERDICT_NONE => Verdict::None,
            VERDICT_GOOD => Verdict::Good,
            VERDICT_BAD => Verdict::Bad,
            number => unknown("verdict", number),
        };
        let word = match answer.reading {
            WORD_MENDED => Word::Mended(answer.code),
            WORD_ITEM => Word::Item(answer.code),
            WORD_MESSAGE => Word::Message(answer.code),
            WORD_FORBIDDEN => Word::ForbiddenItem(answer.code),
            WORD_NOT_FOLLOWED => Word::NotFollowed(answer.code),
            WORD_UNREADABLE => Word::Unreadable,
            WORD_NOT_READ => Word::NotRead,
            number => unknown("word", number),
        };
        Block { standing, verdict, word }
    }
}

/// The receiving end of a channel: what it keeps between blocks.
#[derive(Clone, Debug, PartialEq, Eq)]
pub struct Reader {
    pub(crate) state: ffi::Reader,
}

impl Reader {
    /// The length of a saved reader.
    pub const OCTETS: usize = OCTETS_SAVED_READER;

    /// A reader before its first block: audio and data off, its place unknown.
    pub fn new() -> Reader {
        Reader::from_state(ffi::start_reader())
    }

    pub(crate) fn from_state(state: ffi::Reader) -> Reader {
        Reader { state }
    }

    /// Takes one block of 20 ms apart and moves on to the next.
    ///
    /// `line` has [`LINE`](crate::LINE) octets, `voice` has [`VOICE`](crate::VOICE) and `lsd` has [`LSD`](crate::LSD);
    /// other lengths are refused. Both streams are written whole: what the block carries by the commands before it,
    /// then zeros; zeros alone where the block is not [`Standing::Read`].
    ///
    /// # Errors
    ///
    /// Refusals 1 to 4; the reader, `voice` and `lsd` are then as they were.
    pub fn read(&mut self, line: &[u8], voice: &mut [u8], lsd: &mut [u8]) -> Result<Block, Refusal> {
        let answer = ffi::read(&mut self.state, line, voice, lsd);
        Refusal::unless_zero(answer.number)?;
        match answer.kind {
            READ_BLOCK => Ok(Block::from_answer(&answer.block)),
            kind => unknown("reading", kind),
        }
    }

    /// What the next block is cut by.
    pub fn mode(&self) -> Mode {
        Mode::from_state(ffi::tell_reader(&self.state).mode)
    }

    /// The next block's number among the eight of a multiframe, 1 to 8; none while it is unknown.
    pub fn next_block(&self) -> Option<u8> {
        match ffi::tell_reader(&self.state).block {
            0 => None,
            number => Some(number),
        }
    }

    /// What the next word is taken for.
    pub fn due(&self) -> Due {
        let told = ffi::tell_reader(&self.state);
        Due::from_numbers(told.due, told.words)
    }

    /// The reader as octets, to be saved. Later versions load them too.
    pub fn save(&self) -> [u8; Reader::OCTETS] {
        saved(|octets| ffi::save_reader(&self.state, octets))
    }

    /// A reader that this version or an earlier one has saved. Any octets are taken; its calls refuse with 1 where they
    /// are out of range.
    ///
    /// # Errors
    ///
    /// Where no saved reader has so many octets.
    pub fn load(saved: &[u8]) -> Result<Reader, NoSavedForm> {
        loaded(ffi::load_reader(saved), saved.len()).map(Reader::from_state)
    }
}

impl Default for Reader {
    fn default() -> Reader {
        Reader::new()
    }
}

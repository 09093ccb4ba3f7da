//! A walk over a recording of any length, which is read as it comes.
//!
//! `delampuk::Walk` goes over a recording that is there whole, of 65,536 octets at most. This one keeps a window of that
//! length and takes the same steps: within that length both answer the same.

use std::io::{self, ErrorKind, Read};

use delampuk::{search, Block, Mode, Reader, Refusal, Standing, LINE, LSD, RECORDING_MAX, VOICE};

use crate::input::Input;
use crate::progress::Progress;
use crate::stop::Stop;

/// The octets that a search looks at for one place: a block, and the first eight octets of the next.
const ALIGNED: usize = LINE + 8;

/// What a step came to.
#[derive(Debug, PartialEq, Eq)]
pub enum Step {
    /// Blocks begin at this octet of the recording; the first step, and the one after a lost block.
    Found(u64),
    /// No block begins anywhere. This is the first step, and the last.
    None(Refusal),
    /// A block was taken.
    Block(Taken),
    /// So many octets are left. This is the last step.
    End(u64),
}

/// A block that was taken, with what it carried.
#[derive(Debug, PartialEq, Eq)]
pub struct Taken {
    /// What the reader says of it.
    pub block: Block,
    /// What it was cut by.
    pub mode: Mode,
    /// Its voice; how much of it counts is told by the mode.
    pub voice: [u8; VOICE],
}

/// The walk.
pub struct Walk {
    window: Window,
    reader: Reader,
    /// Whether a place has to be found before the next block.
    searches: bool,
    /// The place after the last block; none before the first place is found.
    after: Option<u64>,
    /// What is shown of a long search.
    pub progress: Progress,
}

impl Walk {
    /// A walk from the recording's first octet on.
    pub fn new(input: Input) -> Walk {
        let progress = Progress::new();
        Walk { window: Window::new(input), reader: Reader::new(), searches: true, after: None, progress }
    }

    /// Whether the next step takes a block that is here already. Where it does not, it may wait for input.
    pub fn is_ready(&self) -> bool {
        !self.searches && self.window.octets().len() >= LINE
    }

    /// The place in the recording.
    pub fn place(&self) -> u64 {
        self.window.place
    }

    /// One step.
    pub fn step(&mut self) -> Result<Step, Stop> {
        if self.searches {
            return self.find();
        }
        if !self.window.fill(LINE)? {
            return Ok(Step::End(self.window.octets().len() as u64));
        }
        let mode = self.reader.mode();
        let mut voice = [0; VOICE];
        let block = self.reader.read(&self.window.octets()[..LINE], &mut voice, &mut [0; LSD])?;
        self.window.skip(LINE);
        self.after = Some(self.window.place);
        self.searches = block.standing == Standing::Lost;
        Ok(Step::Block(Taken { block, mode, voice }))
    }

    /// The step that answers a place. Where there is none, the end counts from the lost block on.
    fn find(&mut self) -> Result<Step, Stop> {
        let found = self.window.align(&mut self.progress);
        self.progress.end();
        match found? {
            Ok(()) => {
                self.searches = false;
                Ok(Step::Found(self.window.place))
            }
            Err(refusal) => match self.after {
                None => Ok(Step::None(refusal)),
                Some(after) => Ok(Step::End(self.window.place + self.window.octets().len() as u64 - after)),
            },
        }
    }
}

/// The part of a recording that is in memory.
struct Window {
    input: Input,
    buffer: Vec<u8>,
    /// Where the octets begin that came in and are not taken yet, and where they end.
    from: usize,
    to: usize,
    /// The place of the first of them in the recording.
    place: u64,
}

impl Window {
    fn new(input: Input) -> Window {
        Window { input, buffer: vec![0; RECORDING_MAX], from: 0, to: 0, place: 0 }
    }

    fn octets(&self) -> &[u8] {
        &self.buffer[self.from..self.to]
    }

    fn skip(&mut self, length: usize) {
        self.from += length;
        self.place += length as u64;
    }

    /// Takes in what has come, and waits where that is nothing; false where the recording has ended.
    fn more(&mut self) -> Result<bool, Stop> {
        self.buffer.copy_within(self.from..self.to, 0);
        self.to -= self.from;
        self.from = 0;
        loop {
            match self.input.octets.read(&mut self.buffer[self.to..]) {
                Ok(length) => {
                    self.to += length;
                    return Ok(length > 0);
                }
                Err(error) if error.kind() == ErrorKind::Interrupted => {}
                Err(error) => return Err(self.unread(error)),
            }
        }
    }

    fn unread(&self, error: io::Error) -> Stop {
        Stop::unread(&self.input.name, error)
    }

    /// Waits for so many octets; false where the recording has ended before.
    fn fill(&mut self, length: usize) -> Result<bool, Stop> {
        while self.octets().len() < length {
            if !self.more()? {
                return Ok(false);
            }
        }
        Ok(true)
    }

    /// Goes on to the next place where a block begins; the refusal is that of a search to the end of the recording.
    fn align(&mut self, progress: &mut Progress) -> Result<Result<(), Refusal>, Stop> {
        let start = self.place;
        while self.fill(ALIGNED)? {
            match search(self.octets(), 0) {
                Ok(place) => {
                    self.skip(place);
                    return Ok(Ok(()));
                }
                // every place was tried that has octets enough behind it
                Err(_) => self.skip(self.octets().len() + 1 - ALIGNED),
            }
            progress.tick(self.place);
        }
        Ok(Err(if self.place > start { Refusal::NoPlace } else { Refusal::Recording }))
    }
}

//! Reads a line of any length from standard input, block by block, and prints a listing of it:
//!
//! ```text
//! cargo run --offline --release -p delampuk --example stream < recording
//! ```
//!
//! A recording for `search`, `list` or a `Walk` has at most 65,536 octets, which are eight seconds. A stream has no end
//! that is known: here a search looks at a window of it, and from the place that it finds on a `Reader` takes the blocks
//! one by one. After a loss the same reader goes on from the next place that a search finds, for it keeps the mode.

use std::error::Error;
use std::io::{self, Read, Write};

use delampuk::{search, Block, Reader, Refusal, Standing, Verdict, LINE, LSD, VOICE};

/// The octets that a search looks at for one place: a block, and the first eight octets of the next.
const ALIGNED: usize = LINE + 8;

/// The octets that are searched at a time.
const WINDOW: usize = 2 * LINE + 8;

/// What came in and is not read yet.
struct Stream<R> {
    input: R,
    octets: Vec<u8>,
    /// The place of the first of these octets in the whole stream.
    place: u64,
}

impl<R: Read> Stream<R> {
    /// Waits for so many octets; fewer stand there where the stream has ended.
    fn fill(&mut self, length: usize) -> io::Result<&[u8]> {
        let missing = length.saturating_sub(self.octets.len());
        self.input.by_ref().take(missing as u64).read_to_end(&mut self.octets)?;
        Ok(&self.octets)
    }

    fn skip(&mut self, length: usize) {
        self.octets.drain(..length);
        self.place += length as u64;
    }

    /// Goes on to the next place where a block begins; the refusal is that of a search to the end of the stream.
    fn align(&mut self) -> io::Result<Result<(), Refusal>> {
        let start = self.place;
        loop {
            let window = self.fill(WINDOW)?;
            let length = window.len();
            match search(window, 0) {
                Ok(place) => {
                    self.skip(place);
                    return Ok(Ok(()));
                }
                // every place was tried at which the window has octets enough
                Err(Refusal::NoPlace) => self.skip(length + 1 - ALIGNED),
                Err(_) if self.place > start => return Ok(Err(Refusal::NoPlace)),
                Err(refusal) => return Ok(Err(refusal)),
            }
        }
    }
}

/// A block in a line: how it was taken, what the CRC says, and its code in hex.
fn told(block: &Block) -> String {
    let standing = match block.standing {
        Standing::Waiting => "waiting",
        Standing::Read => "read",
        Standing::Lost => "lost",
    };
    let verdict = match block.verdict {
        Verdict::None => "none",
        Verdict::Good => "good",
        Verdict::Bad => "bad",
    };
    match block.word.code() {
        Some(code) => format!("{standing} {verdict} {code:02X}"),
        None => format!("{standing} {verdict} --"),
    }
}

/// Writes the listing of a stream.
pub fn run(input: impl Read, mut out: impl Write) -> Result<(), Box<dyn Error>> {
    let mut stream = Stream { input, octets: Vec::new(), place: 0 };
    if let Err(refusal) = stream.align()? {
        writeln!(out, "none {}", refusal.number())?;
        return Ok(());
    }
    writeln!(out, "found {}", stream.place)?;
    let (mut reader, mut voice, mut lsd) = (Reader::new(), [0; VOICE], [0; LSD]);
    // the blocks so far, and the place after the last of them
    let (mut count, mut read) = (0_u64, stream.place);
    while let Some(line) = stream.fill(LINE)?.get(..LINE) {
        let block = reader.read(line, &mut voice, &mut lsd)?;
        stream.skip(LINE);
        read = stream.place;
        writeln!(out, "{count} {}", told(&block))?;
        count += 1;
        if block.standing == Standing::Lost {
            if stream.align()?.is_err() {
                break;
            }
            writeln!(out, "found {}", stream.place)?;
        }
    }
    writeln!(out, "left {}", stream.place + stream.octets.len() as u64 - read)?;
    Ok(())
}

fn main() -> Result<(), Box<dyn Error>> {
    run(io::stdin().lock(), io::stdout().lock())
}

//! `delampuk list`: the listing of a recording.

use std::ffi::OsString;
use std::io::{self, BufWriter, Write};

use crate::arguments::{no_option, too_many, Argument, Arguments};
use crate::input::Input;
use crate::listing::Listing;
use crate::stop::{Outcome, Stop};
use crate::terminal::{is_terminal, OUTPUT};
use crate::walk::{Step, Walk};
use crate::Command;

/// The subcommand.
pub const COMMAND: Command = Command { name: "list", about: "lists the blocks of a recording", help: HELP, run };

const HELP: &str = "\
usage: delampuk list [--words] [FILE]

Lists the blocks of a recording of the line, FILE or standard input, of any length.

The first line is 'found' and the octet where alignment was found, or 'none' and the number of a refusal: 9 for
fewer than 168 octets, 10 where no alignment is found. The exit status is 1 then. Each block has its count, its
state (waiting, read, lost), its CRC verdict on the block before (none, good, bad) and the code of its BAS word in
hex, or --. A place that is found again after a loss has a line 'found', and the last line is the octets 'left'.

  --words   adds to each block's line what its word is, and the audio and data in force in the block:
              command        sets audio or data from the next block on
              escape         the next word is an item
              opens-message  the next word is the length of a message
              plain          a word that says nothing of these
              item           the word after an escape; no command, whatever its code
              message        a word of a message, its length among them; no command
              forbidden      an item with attribute 111, which none may have
              not-followed   a command that this library does not carry; it changed nothing
              unreadable     no code is within two bits of it, or three bits of the block's alignment are wrong
              not-read       the reader waits for its place, or has lost alignment
";

struct Plan {
    words: bool,
    file: Option<OsString>,
}

fn run(arguments: Arguments) -> Outcome {
    let plan = plan(arguments)?;
    let mut walk = Walk::new(Input::open(plan.file)?);
    let mut out = BufWriter::new(io::stdout().lock());
    let outcome = listed(&mut walk, Listing::new(plan.words), &mut out);
    walk.progress.end();
    outcome
}

fn plan(mut arguments: Arguments) -> Result<Plan, Stop> {
    let mut plan = Plan { words: false, file: None };
    while let Some(argument) = arguments.next()? {
        match argument {
            Argument::Option(option) if option == "--words" => plan.words = true,
            Argument::Option(option) => return Err(no_option(&option)),
            Argument::Word(word) if plan.file.is_some() => return Err(too_many(&word)),
            Argument::Word(word) => plan.file = Some(word),
        }
    }
    Ok(plan)
}

fn listed(walk: &mut Walk, mut listing: Listing, out: &mut impl Write) -> Outcome {
    // lines that appear on a terminal show well enough how far it is
    let shows = !is_terminal(OUTPUT);
    loop {
        if !walk.is_ready() {
            // what is known is there before more is waited for
            out.flush().map_err(Stop::unwritten)?;
        }
        let step = walk.step()?;
        out.write_all(listing.line(&step).as_bytes()).map_err(Stop::unwritten)?;
        match step {
            Step::Found(_) => {}
            Step::Block(_) if shows => walk.progress.tick(walk.place()),
            Step::Block(_) => {}
            Step::End(_) => return out.flush().map_err(Stop::unwritten),
            Step::None(refusal) => {
                out.flush().map_err(Stop::unwritten)?;
                return Err(refusal.into());
            }
        }
    }
}

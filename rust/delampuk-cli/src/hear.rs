//! `delampuk hear`: the voice of a recording.

use std::ffi::OsString;
use std::io::{self, BufWriter, Write};

use delampuk::Standing;

use crate::arguments::{no_option, too_many, Argument, Arguments};
use crate::input::Input;
use crate::listing::Listing;
use crate::samples::unpacked;
use crate::stop::{Outcome, Stop};
use crate::walk::{Step, Taken, Walk};
use crate::Command;

/// The subcommand.
pub const COMMAND: Command = Command { name: "hear", about: "takes the voice out of a recording", help: HELP, run };

const HELP: &str = "\
usage: delampuk hear [--octets] [FILE] > VOICE

Takes the voice out of a recording of the line, FILE or standard input, of any length. The voice of each block that
is read goes to standard output, as packed bits: 20 octets for each bit that the audio in force holds in an octet of
the line. A block that was sent muted while audio was in force gives ones; one with no audio in force gives nothing.

Standard error has the lines of 'delampuk list'. Where no alignment is found, the exit status is 1.

  --octets  writes one sample an octet, 160 for each block that is read, so that a sound tool which takes 8 bits at
            8 kHz plays it: the bits that the audio holds in an octet of the line are the highest, the others zero.
            A block that was sent muted while audio was in force has ones for these bits; one with no audio in
            force has octets FF, so that the time of a mute is kept.
";

struct Plan {
    octets: bool,
    file: Option<OsString>,
}

fn run(arguments: Arguments) -> Outcome {
    let plan = plan(arguments)?;
    let mut walk = Walk::new(Input::open(plan.file)?);
    let mut out = BufWriter::new(io::stdout().lock());
    let mut lines = BufWriter::new(io::stderr().lock());
    heard(&mut walk, plan.octets, &mut out, &mut lines)
}

fn plan(mut arguments: Arguments) -> Result<Plan, Stop> {
    let mut plan = Plan { octets: false, file: None };
    while let Some(argument) = arguments.next()? {
        match argument {
            Argument::Option(option) if option == "--octets" => plan.octets = true,
            Argument::Option(option) => return Err(no_option(&option)),
            Argument::Word(word) if plan.file.is_some() => return Err(too_many(&word)),
            Argument::Word(word) => plan.file = Some(word),
        }
    }
    Ok(plan)
}

fn heard(walk: &mut Walk, octets: bool, out: &mut impl Write, lines: &mut impl Write) -> Outcome {
    let mut listing = Listing::new(false);
    loop {
        if !walk.is_ready() {
            // what is known is there before more is waited for
            flushed(out, lines)?;
        }
        let step = walk.step()?;
        lines.write_all(listing.line(&step).as_bytes()).map_err(Stop::unwritten)?;
        match step {
            Step::Found(_) => {}
            Step::Block(taken) => write_voice(&taken, octets, out)?,
            Step::End(_) => return flushed(out, lines),
            Step::None(refusal) => {
                flushed(out, lines)?;
                return Err(refusal.into());
            }
        }
    }
}

fn flushed(out: &mut impl Write, lines: &mut impl Write) -> Outcome {
    out.flush().and_then(|()| lines.flush()).map_err(Stop::unwritten)
}

/// Writes the octets of a block's voice that count, where it was read.
fn write_voice(taken: &Taken, octets: bool, out: &mut impl Write) -> Outcome {
    if taken.block.standing != Standing::Read {
        return Ok(());
    }
    let voice = &taken.voice[..taken.mode.counts().voice_octets];
    let written = if octets { out.write_all(&unpacked(voice)) } else { out.write_all(voice) };
    written.map_err(Stop::unwritten)
}

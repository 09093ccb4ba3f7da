//! `delampuk send`: frames voice and data into a recording.

use std::ffi::OsString;

use crate::arguments::{no_option, Argument, Arguments};
use crate::input::Input;
use crate::session::{self, Session};
use crate::stop::{Outcome, Stop};
use crate::supply::Supply;
use crate::words::{self, Repeated};
use crate::Command;

/// The subcommand.
pub const COMMAND: Command = Command { name: "send", about: "frames voice into a recording", help: HELP, run };

const HELP: &str = "\
usage: delampuk send [--state FILE | --preset HHHH] [--data FILE] [--save FILE] WORD.. < VOICE > RECORDING

Makes sending calls one after the other, from a fresh state on. Each that is accepted writes a block of 160 octets to
standard output. A word is a call, HH[:FLAGS][*N]: the offered code in hex; letters out of m (mute), a, e, t, which
are the A bit, the E bit and the terminal alarm; and how often the call is made, 1 or more.

Voice comes from standard input as packed bits: each unmuted block takes 20 octets for each bit that the audio in
force holds in an octet of the line. A muted or refused call takes none. What is missing is sent as zero, and
standard error says how much that was.

Standard error has a line for each call: 'sent', 'held' with the word that went instead (offer the code again), or
'refused' and the number. A refused call leaves everything as it was, and the next call is made; the exit status is 1
then, and the last line has the meaning of the numbers.

  --state FILE   begins with a sender that --save or the library has saved
  --preset HHHH  begins with a preset of sixteen bits, in hex; the code to offer for its data is told
  --data FILE    data: each block that is accepted takes as many octets as hold the bits of the data in force
  --save FILE    saves the sender as the last call left it
";

/// What the arguments ask for.
#[derive(Default)]
struct Plan {
    state: Option<OsString>,
    preset: Option<u16>,
    data: Option<OsString>,
    save: Option<OsString>,
    calls: Vec<Repeated>,
}

fn run(arguments: Arguments) -> Outcome {
    let plan = plan(arguments)?;
    let sender = match (plan.state, plan.preset) {
        (Some(file), _) => session::load(&file)?,
        (_, Some(bits)) => session::from_preset(bits)?,
        _ => delampuk::Sender::new(),
    };
    let data = plan.data.map(|file| Input::file(&file).map(Supply::new)).transpose()?;
    let mut session = Session::new(sender, Supply::new(Input::standard()), data);
    for Repeated { call, times } in plan.calls {
        for _ in 0..times {
            session.make(&call)?;
        }
    }
    if let Some(file) = plan.save {
        session.save(&file)?;
    }
    session.end()
}

fn plan(mut arguments: Arguments) -> Result<Plan, Stop> {
    let mut plan = Plan::default();
    while let Some(argument) = arguments.next()? {
        match argument {
            Argument::Word(word) => plan.calls.push(call(&word.to_string_lossy())?),
            Argument::Option(option) => plan.option(&option, &mut arguments)?,
        }
    }
    if plan.calls.is_empty() {
        return Err(Stop::Usage("no call is given".to_string()));
    }
    if plan.state.is_some() && plan.preset.is_some() {
        return Err(Stop::Usage("--state and --preset do not go together".to_string()));
    }
    Ok(plan)
}

impl Plan {
    fn option(&mut self, option: &str, arguments: &mut Arguments) -> Outcome {
        match option {
            "--state" => self.state = Some(arguments.value(option)?),
            "--preset" => self.preset = Some(preset(&arguments.value(option)?.to_string_lossy())?),
            "--data" => self.data = Some(arguments.value(option)?),
            "--save" => self.save = Some(arguments.value(option)?),
            _ => return Err(no_option(option)),
        }
        Ok(())
    }
}

fn call(word: &str) -> Result<Repeated, Stop> {
    words::read(word).ok_or_else(|| Stop::Usage(format!("\"{word}\" is no call: a call is HH[:FLAGS][*N]")))
}

fn preset(text: &str) -> Result<u16, Stop> {
    let bits = words::hex(text).filter(|_| text.len() == 4);
    bits.ok_or_else(|| Stop::Usage(format!("\"{text}\" is no preset: a preset is four hex digits")))
}

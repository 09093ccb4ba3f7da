//! The command `delampuk`: one 64 kbit/s channel framed by ITU-T H.221, at a shell.

mod arguments;
mod hear;
mod input;
mod list;
mod listing;
mod picture;
mod progress;
mod samples;
mod send;
mod session;
mod stop;
mod supply;
mod terminal;
mod walk;
mod words;

use std::ffi::OsString;
use std::io::{self, Write};
use std::process::ExitCode;

use arguments::Arguments;
use stop::{Outcome, Stop};

/// A subcommand.
pub struct Command {
    /// What it is called by.
    pub name: &'static str,
    /// What it does, in half a line.
    pub about: &'static str,
    /// What `--help` writes: the usage first, a newline last.
    pub help: &'static str,
    /// Runs it with the arguments after its name.
    pub run: fn(Arguments) -> Outcome,
}

/// Every subcommand, as the help shows them.
const COMMANDS: &[Command] = &[send::COMMAND, hear::COMMAND, list::COMMAND, picture::COMMAND];

fn main() -> ExitCode {
    let arguments: Vec<OsString> = std::env::args_os().skip(1).collect();
    let command = arguments.first().and_then(|name| COMMANDS.iter().find(|command| *name == command.name));
    let (name, outcome) = match command {
        Some(command) => (format!("delampuk {}", command.name), subcommand(command, &arguments[1..])),
        None => ("delampuk".to_string(), alone(&arguments)),
    };
    match outcome {
        Ok(()) => ExitCode::SUCCESS,
        Err(stop) => {
            // where standard error cannot be written either, the status alone is left to tell it
            let _ = io::stderr().write_all(stop.message(&name).as_bytes());
            ExitCode::from(stop.status())
        }
    }
}

/// A subcommand's help, the version, or its run.
fn subcommand(command: &Command, arguments: &[OsString]) -> Outcome {
    match arguments::asked(arguments) {
        Some("--help") => say(command.help),
        Some(_) => say(&version()),
        None => (command.run)(Arguments::new(arguments.to_vec())),
    }
}

/// What the command does without a subcommand.
fn alone(arguments: &[OsString]) -> Outcome {
    match arguments.first() {
        None => Err(Stop::Usage("no subcommand".to_string())),
        Some(word) if *word == "help" => say(&help()),
        Some(word) => match arguments::asked(&arguments[..1]) {
            Some("--help") => say(&help()),
            Some(_) => say(&version()),
            None => Err(Stop::Usage(format!("no subcommand is called {}", word.to_string_lossy()))),
        },
    }
}

fn say(text: &str) -> Outcome {
    let mut out = io::stdout().lock();
    out.write_all(text.as_bytes()).and_then(|()| out.flush()).map_err(Stop::unwritten)
}

fn version() -> String {
    format!("delampuk {}\n", delampuk::version())
}

fn help() -> String {
    let mut text = String::from(
        "usage: delampuk SUBCOMMAND [ARGUMENTS]\n\n\
         One 64 kbit/s channel framed by ITU-T H.221: voice, a trickle of data, and BAS words.\n\n",
    );
    for command in COMMANDS {
        text += &format!("  {:<9}{}\n", command.name, command.about);
    }
    text += "\n\
        'delampuk SUBCOMMAND --help' explains one of them; --version tells the version.\n\n\
        The exit status is 0; 1 where something was refused or found at fault, or could not be read or written,\n\
        which standard error tells; 2 where the command was called wrongly; and 141 where a pipe that takes the\n\
        output was closed, which is not told.\n";
    text
}

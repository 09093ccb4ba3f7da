//! The arguments of a subcommand, one after the other.

use std::ffi::{OsStr, OsString};
use std::vec::IntoIter;

use crate::stop::{Outcome, Stop};

/// One argument.
#[derive(Debug, PartialEq, Eq)]
pub enum Argument {
    /// An option with its dashes, without the value that may stand behind `=`.
    Option(String),
    /// Anything else: a word, a file's name, or "-".
    Word(OsString),
}

/// The arguments after a subcommand's name.
pub struct Arguments {
    rest: IntoIter<OsString>,
    /// What stood behind the `=` of the last option.
    value: Option<OsString>,
    /// Whether "--" has come, after which there are no options.
    ended: bool,
}

impl Arguments {
    /// All of them.
    pub fn new(arguments: Vec<OsString>) -> Arguments {
        Arguments { rest: arguments.into_iter(), value: None, ended: false }
    }

    /// The next one, if there is one.
    pub fn next(&mut self) -> Result<Option<Argument>, Stop> {
        self.no_value()?;
        let argument = match self.rest.next() {
            None => return Ok(None),
            Some(argument) => argument,
        };
        if self.ended || argument == "-" || !is_option(&argument) {
            return Ok(Some(Argument::Word(argument)));
        }
        if argument == "--" {
            self.ended = true;
            return self.next();
        }
        let text = argument.into_string().map_err(|option| no_option(&option.to_string_lossy()))?;
        match text.split_once('=') {
            Some((option, value)) => {
                self.value = Some(value.into());
                Ok(Some(Argument::Option(option.to_string())))
            }
            None => Ok(Some(Argument::Option(text))),
        }
    }

    /// The value of an option that has just come: behind its `=`, or the next argument.
    pub fn value(&mut self, option: &str) -> Result<OsString, Stop> {
        let value = self.value.take().or_else(|| self.rest.next());
        value.ok_or_else(|| Stop::Usage(format!("{option} asks for a value")))
    }

    /// Refuses a value that nobody has asked for.
    fn no_value(&mut self) -> Outcome {
        match self.value.take() {
            Some(value) => Err(Stop::Usage(format!("an option takes no value {}", value.to_string_lossy()))),
            None => Ok(()),
        }
    }
}

/// The usage error for an option that a subcommand does not have.
pub fn no_option(option: &str) -> Stop {
    Stop::Usage(format!("there is no option {option}"))
}

/// The usage error for a word that is one too many.
pub fn too_many(word: &OsStr) -> Stop {
    Stop::Usage(format!("{} is one argument too many", word.to_string_lossy()))
}

/// Whether the arguments ask for "--help" or "--version", before a "--".
pub fn asked(arguments: &[OsString]) -> Option<&'static str> {
    let options = arguments.iter().take_while(|argument| *argument != "--");
    options.into_iter().find_map(|argument| match argument.to_str() {
        Some("--help" | "-h") => Some("--help"),
        Some("--version" | "-V") => Some("--version"),
        _ => None,
    })
}

fn is_option(argument: &OsStr) -> bool {
    argument.to_string_lossy().starts_with('-')
}

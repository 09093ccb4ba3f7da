//! The commands of the program.

pub mod corners;
pub mod list;
pub mod listings;
pub mod read;
pub mod reading;
pub mod recordings;
pub mod send;
pub mod session;
pub mod tape;

use std::io;

/// Why the program stops before its end.
pub enum Stop {
    /// It cannot do what it was called for.
    Call(String),
    /// What it was given to read is not what it takes.
    Input(String),
}

impl From<String> for Stop {
    fn from(message: String) -> Stop {
        Stop::Call(message)
    }
}

/// The arguments of a command: a word, then options with a value each.
pub struct Options {
    arguments: std::vec::IntoIter<String>,
}

impl Options {
    /// The arguments after the command's name.
    pub fn new(arguments: Vec<String>) -> Options {
        Options { arguments: arguments.into_iter() }
    }

    /// The next argument, if any.
    pub fn next(&mut self) -> Option<String> {
        self.arguments.next()
    }

    /// The value of the option `name`, which came last.
    pub fn value(&mut self, name: &str) -> Result<String, String> {
        self.arguments.next().ok_or_else(|| format!("{name} needs a value"))
    }

    /// Complains about arguments that a command without any was given.
    pub fn none(mut self) -> Result<(), String> {
        match self.next() {
            None => Ok(()),
            Some(argument) => Err(unknown(&argument)),
        }
    }
}

/// The complaint about an argument that no command knows.
pub fn unknown(argument: &str) -> String {
    format!("unknown argument \"{argument}\"")
}

/// The complaint about standard output; a reader that went away is none.
pub fn written(result: io::Result<()>) -> Result<(), String> {
    match result {
        Err(error) if error.kind() != io::ErrorKind::BrokenPipe => {
            Err(format!("cannot write standard output: {error}"))
        }
        _ => Ok(()),
    }
}

/// Standard input, but no more of it than tells whether a recording is too long.
pub fn recording() -> Result<Vec<u8>, String> {
    use std::io::Read;
    let mut octets = Vec::new();
    io::stdin()
        .take(model::recording::MOST_OCTETS as u64 + 1)
        .read_to_end(&mut octets)
        .map_err(|error| format!("cannot read standard input: {error}"))?;
    Ok(octets)
}

//! Why a subcommand stops early.

use std::io;

use delampuk::Refusal;

/// How a subcommand ends.
pub type Outcome = Result<(), Stop>;

/// Why it did not end well. `main` tells it on standard error and sets the exit status.
#[derive(Debug, PartialEq, Eq)]
pub enum Stop {
    /// It was called wrongly: status 2.
    Usage(String),
    /// Something was refused or found at fault, or could not be read or written: status 1.
    Fault(String),
    /// Nobody reads the output any more: no word, and the status that a shell tells of a command which SIGPIPE ended.
    Closed,
}

impl Stop {
    /// Standard output or error could not be written.
    pub fn unwritten(error: io::Error) -> Stop {
        match error.kind() {
            io::ErrorKind::BrokenPipe => Stop::Closed,
            _ => Stop::Fault(format!("the output cannot be written: {error}")),
        }
    }

    /// An input could not be opened or read; `name` is that of the file, or "standard input".
    pub fn unread(name: &str, error: io::Error) -> Stop {
        Stop::Fault(format!("{name} cannot be read: {error}"))
    }

    /// The exit status.
    pub fn status(&self) -> u8 {
        match self {
            Stop::Usage(_) => 2,
            Stop::Fault(_) => 1,
            Stop::Closed => 141,
        }
    }

    /// The line for standard error, or two, where there is something to say.
    pub fn message(&self, command: &str) -> String {
        match self {
            Stop::Usage(reason) => format!("{command}: {reason}\n'{command} --help' explains it.\n"),
            Stop::Fault(reason) => format!("{command}: {reason}\n"),
            Stop::Closed => String::new(),
        }
    }
}

impl From<Refusal> for Stop {
    fn from(refusal: Refusal) -> Stop {
        Stop::Fault(refusal.to_string())
    }
}

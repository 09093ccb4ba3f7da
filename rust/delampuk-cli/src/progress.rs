//! How far a long run is, on a terminal.

use std::io::{self, Write};
use std::time::{Duration, Instant};

use crate::terminal::{is_terminal, ERROR};

/// How often it is told, and how long it takes until it is told first.
const PAUSE: Duration = Duration::from_secs(1);

/// A line on standard error that is written over itself, where standard error is a terminal.
pub struct Progress {
    on: bool,
    told: Instant,
    /// Whether the cursor stands behind such a line.
    open: bool,
}

impl Progress {
    /// One that has told nothing yet.
    pub fn new() -> Progress {
        Progress { on: is_terminal(ERROR), told: Instant::now(), open: false }
    }

    /// Tells the place in the recording, once a second.
    pub fn tick(&mut self, place: u64) {
        if self.on && self.told.elapsed() >= PAUSE {
            self.told = Instant::now();
            self.open = true;
            // what cannot be shown here is not missed
            let _ = write!(io::stderr(), "\r{place} octets");
        }
    }

    /// Ends the line, before something else is written.
    pub fn end(&mut self) {
        if self.open {
            self.open = false;
            let _ = writeln!(io::stderr());
        }
    }
}

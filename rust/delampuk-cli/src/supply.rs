//! Octets that blocks take from a file or from standard input.

use std::io::Read;

use crate::input::Input;
use crate::stop::{Outcome, Stop};

/// A source of voice or data that may end before the session does.
pub struct Supply {
    input: Input,
    /// How many octets were asked for and not there.
    missing: u64,
}

impl Supply {
    /// All that an input has.
    pub fn new(input: Input) -> Supply {
        Supply { input, missing: 0 }
    }

    /// Takes the octets of a block. Those that are missing stay as they are.
    pub fn take(&mut self, octets: &mut [u8]) -> Outcome {
        let mut got = Vec::with_capacity(octets.len());
        // an end is final, also on a terminal
        if self.missing == 0 {
            let mut source = self.input.octets.by_ref().take(octets.len() as u64);
            source.read_to_end(&mut got).map_err(|error| Stop::unread(&self.input.name, error))?;
        }
        octets[..got.len()].copy_from_slice(&got);
        self.missing += (octets.len() - got.len()) as u64;
        Ok(())
    }

    /// What there is to say of octets that were missing.
    pub fn shortage(&self, what: &str) -> Option<String> {
        let name = &self.input.name;
        (self.missing > 0)
            .then(|| format!("{name} has ended: {} octets of {what} are missing and sent as zero\n", self.missing))
    }
}

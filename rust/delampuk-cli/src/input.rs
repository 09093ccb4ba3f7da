//! Inputs as they are named at a shell.

use std::ffi::OsString;
use std::fs::File;
use std::io::{self, Read};

use crate::stop::Stop;

/// Octets, and where they come from.
pub struct Input {
    /// How it is called in a message.
    pub name: String,
    /// Its octets.
    pub octets: Box<dyn Read>,
}

impl Input {
    /// A file, or standard input where there is no name or the name is "-".
    pub fn open(file: Option<OsString>) -> Result<Input, Stop> {
        match file {
            Some(file) if file != "-" => Input::file(&file),
            _ => Ok(Input::standard()),
        }
    }

    /// A file.
    pub fn file(file: &OsString) -> Result<Input, Stop> {
        let name = file.to_string_lossy().into_owned();
        match File::open(file) {
            Ok(octets) => Ok(Input { name, octets: Box::new(octets) }),
            Err(error) => Err(Stop::unread(&name, error)),
        }
    }

    /// Standard input.
    pub fn standard() -> Input {
        Input { name: "standard input".to_string(), octets: Box::new(io::stdin()) }
    }
}

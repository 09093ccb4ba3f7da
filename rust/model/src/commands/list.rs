//! `model list`: 01's listing of standard input.

use std::io::{self, Write};

use super::{recording, written, Options};
use model::listing::listing;

/// Runs the command.
pub fn run(options: Options) -> Result<(), String> {
    options.none()?;
    let listing = listing(&recording()?);
    written(io::stdout().write_all(listing.as_bytes()))
}

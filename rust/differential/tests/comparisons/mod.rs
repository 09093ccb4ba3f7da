//! The comparisons, over whichever way to the library the test program names.

mod asking;
mod corners;
mod listing;
mod presets;
mod reading;
mod saving;
mod searching;
mod sending;
mod walking;

use differential::cases::{self, Reached};

type Trial<'a> = cases::Trial<'a, crate::Way>;

fn run(name: &str, share: u64, case: impl Fn(&mut Trial)) -> Reached {
    cases::run(name, share, case)
}

//! The wrapper as a program uses it.

mod asking;
mod blocks;
mod common;
mod examples;
mod lesson;
mod presets;
mod refusals;
mod saved;
mod walking;

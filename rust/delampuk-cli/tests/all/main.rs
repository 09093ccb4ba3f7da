//! Runs the command as a person calls it.

mod common;
mod hear;
mod help;
mod list;
mod random;
mod send;
mod streams;

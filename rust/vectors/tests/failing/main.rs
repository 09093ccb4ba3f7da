//! The runner can fail: stored cases with one thing changed, and an implementation that does one thing wrong.

mod careless;
mod changed;
mod later;
mod printed;
mod stored;

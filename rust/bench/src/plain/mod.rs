//! Document 01 in straightforward Rust, built for speed by ordinary means: an octet at a time, bits through a small
//! accumulator, tables for the CRC and for BAS words, and a sliding window for the search.

mod bas;
mod bits;
mod codes;
mod crc;
pub mod listing;
pub mod reader;
pub mod search;
pub mod sender;
mod slots;

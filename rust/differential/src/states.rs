//! States as the octets that cross to C, and as the model holds them.
//!
//! The octets are those of the structs in order, a walk's as reader, lost and place. Today these are also the saved
//! forms, and `model::saved` tells which states the model holds for the same. A state that a call leaves becomes the one
//! row of octets that it writes; a refused call gives back the very octets that it was given.

use model::reader::ReaderState;
use model::saved;
use model::sender::SenderState;

/// `struct delampuk_sender`: chosen, mode (audio, lsd), block, due, remainder.
pub type Sender = [u8; 6];

/// `struct delampuk_reader`: mode, kept (audio and lsd each), wrong, block, firsts, misses, slot (kind, words),
/// before, remainder.
pub type Reader = [u8; 12];

/// `struct delampuk_walk`: reader, lost, place.
pub type Walk = [u8; 21];

/// A fresh sender's octets.
pub fn fresh_sender() -> Sender {
    sender_octets(&SenderState::FRESH)
}

/// A fresh reader's octets.
pub fn fresh_reader() -> Reader {
    reader_octets(&ReaderState::FRESH).expect("the library has a fresh state")
}

/// The octets of a walk.
pub fn walk(reader: Reader, lost: u8, place: usize) -> Walk {
    let mut octets = [lost; 21];
    octets[..12].copy_from_slice(&reader);
    octets[13..].copy_from_slice(&place.to_le_bytes());
    octets
}

/// The model's state of a sender's octets.
pub fn sender(octets: Sender) -> SenderState {
    saved::load_sender(&octets).expect("six octets are a sender")
}

/// The octets that a call leaves for a model's state.
pub fn sender_octets(state: &SenderState) -> Sender {
    saved::save_sender(state)
}

/// The model's state of a reader's octets.
pub fn reader(octets: Reader) -> ReaderState {
    saved::load_reader(&octets).expect("twelve octets are a reader")
}

/// The octets that a block leaves for a model's state; none where the library cannot hold it.
pub fn reader_octets(state: &ReaderState) -> Option<Reader> {
    saved::save_reader(state)
}

/// The wrapper's sender of these octets.
pub fn linked_sender(octets: Sender) -> delampuk::Sender {
    delampuk::Sender::load(&octets).expect("six octets are a sender")
}

/// The wrapper's reader of these octets.
pub fn linked_reader(octets: Reader) -> delampuk::Reader {
    delampuk::Reader::load(&octets).expect("twelve octets are a reader")
}

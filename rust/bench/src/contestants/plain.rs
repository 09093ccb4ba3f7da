//! `plain`: straightforward Rust, built for speed by ordinary means (`src/plain/`).

use super::Contestant;
use crate::forms::{self, Offer, ReadAnswer, Reader, SearchAnswer, SendAnswer, Sender};
use crate::plain;

/// The calls of `src/plain/`.
pub struct Plain;

impl Contestant for Plain {
    fn name(&self) -> &'static str {
        "plain"
    }

    fn send(&self, state: &mut Sender, offer: &Offer, line: &mut [u8]) -> SendAnswer {
        plain::sender::send(state, offer, line)
    }

    fn read(&self, state: &mut Reader, line: &[u8], voice: &mut [u8], lsd: &mut [u8]) -> ReadAnswer {
        plain::reader::read(state, line, voice, lsd)
    }

    fn search(&self, recording: &[u8], start: usize) -> SearchAnswer {
        forms::search_answer(plain::search::search(recording, start))
    }

    fn list(&self, recording: &[u8], text: &mut [u8]) -> usize {
        plain::listing::list(recording, text)
    }
}

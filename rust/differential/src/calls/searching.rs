//! `delampuk_search`.

use std::io;

use model::recording;

use super::{Call, Octets};
use crate::linked::Room;
use crate::server::{Answer, Request};
use crate::smaller::Field;

/// `delampuk_search`.
#[derive(Clone, Debug)]
pub struct Search {
    /// The recording.
    pub recording: Octets,
    /// The octet from which on it is searched.
    pub start: usize,
}

/// What `delampuk_search` leaves.
#[derive(Debug, PartialEq)]
pub struct SearchLeft {
    /// The refusal's number, or 0.
    pub number: u8,
    /// The place, or 0.
    pub place: usize,
    /// Nothing changed.
    pub kept: u8,
}

impl Call for Search {
    type Left = SearchLeft;

    fn request(&self, request: &mut Request) {
        request.octets(b"L").number(self.start).buffers(&[&self.recording.0]);
    }

    fn left(&self, answer: &mut Answer) -> io::Result<SearchLeft> {
        Ok(SearchLeft { number: answer.octet()?, place: answer.number()?, kept: answer.octet()? })
    }

    fn linked(&self) -> SearchLeft {
        let mut room = Room::of([&self.recording]);
        let [recording] = room.lend();
        let (number, place) = match delampuk::search(recording, self.start) {
            Ok(place) => (0, place),
            Err(refusal) => (refusal.number(), 0),
        };
        SearchLeft { number, place, kept: room.kept([]) }
    }

    fn expected(&self) -> SearchLeft {
        let (number, place) = match recording::search(&self.recording.0, self.start) {
            Ok(place) => (0, place),
            Err(refusal) => (refusal.number(), 0),
        };
        SearchLeft { number, place, kept: 1 }
    }

    fn fields(&mut self) -> Vec<Field<'_>> {
        vec![Field::Recording(&mut self.recording, &mut self.start)]
    }

    fn outcome(left: &SearchLeft) -> Vec<String> {
        vec![format!("number {}", left.number)]
    }
}

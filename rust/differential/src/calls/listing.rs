//! `delampuk_list`.

use std::io;

use super::{Call, Octets};
use crate::linked::Room;
use crate::server::{Answer, Request};
use crate::smaller::Field;

/// `delampuk_list`.
#[derive(Clone, Debug)]
pub struct List {
    /// The recording.
    pub recording: Octets,
    /// Where the listing goes.
    pub text: Octets,
}

/// What `delampuk_list` leaves.
#[derive(Debug, PartialEq)]
pub struct ListLeft {
    /// The listing's length, or one more than there is room for.
    pub length: usize,
    /// Nothing else changed.
    pub kept: u8,
    /// The text.
    pub text: Octets,
}

impl Call for List {
    type Left = ListLeft;

    fn request(&self, request: &mut Request) {
        request.octets(b"T").buffers(&[&self.recording.0, &self.text.0]);
    }

    fn left(&self, answer: &mut Answer) -> io::Result<ListLeft> {
        let (length, kept) = (answer.number()?, answer.octet()?);
        Ok(ListLeft { length, kept, text: Octets(answer.buffer(self.text.0.len())?) })
    }

    fn linked(&self) -> ListLeft {
        let mut room = Room::of([&self.recording, &self.text]);
        let [recording, text] = room.lend();
        let length = delampuk::list(recording, text).unwrap_or(self.text.0.len() + 1);
        ListLeft { length, kept: room.kept([1]), text: room.buffer(1) }
    }

    fn expected(&self) -> ListLeft {
        let listing = model::listing::listing(&self.recording.0);
        let mut text = self.text.0.clone();
        let fits = listing.len().min(text.len());
        text[..fits].copy_from_slice(&listing.as_bytes()[..fits]);
        ListLeft { length: listing.len().min(text.len() + 1), kept: 1, text: Octets(text) }
    }

    fn fields(&mut self) -> Vec<Field<'_>> {
        vec![Field::Buffer(&mut self.recording), Field::Buffer(&mut self.text)]
    }

    fn outcome(left: &ListLeft) -> Vec<String> {
        vec![format!("fits {}", u8::from(left.length <= left.text.0.len()))]
    }
}

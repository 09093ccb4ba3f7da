//! `delampuk_save_sender`, `delampuk_load_sender` and the same of readers and walks.

use std::io;

use model::saved;

use super::{Call, Octets};
use crate::server::{Answer, Request};
use crate::smaller::Field;
use crate::states::{self, Reader, Sender, Walk};

const NO: u8 = 0;
const DONE: u8 = 1;

/// A state that can be saved.
#[derive(Clone, Debug, PartialEq)]
pub enum State {
    /// A sender.
    Sender(Sender),
    /// A reader.
    Reader(Reader),
    /// A walk.
    Walk(Walk),
}

impl State {
    /// The letter by which the server knows the state.
    fn letter(&self) -> &'static [u8] {
        match self {
            State::Sender(_) => b"s",
            State::Reader(_) => b"r",
            State::Walk(_) => b"w",
        }
    }

    fn octets(&self) -> &[u8] {
        match self {
            State::Sender(octets) => octets,
            State::Reader(octets) => octets,
            State::Walk(octets) => octets,
        }
    }

    fn field(&mut self) -> Field<'_> {
        match self {
            State::Sender(octets) => Field::Octets(octets, states::fresh_sender().into()),
            State::Reader(octets) => Field::Octets(octets, states::fresh_reader().into()),
            State::Walk(octets) => Field::Octets(octets, states::walk(states::fresh_reader(), 0, 0).into()),
        }
    }

    /// A state of the same kind with these octets, as many as it has.
    fn with(&self, octets: &[u8]) -> State {
        let same = "a state has so many octets";
        match self {
            State::Sender(_) => State::Sender(octets.try_into().expect(same)),
            State::Reader(_) => State::Reader(octets.try_into().expect(same)),
            State::Walk(_) => State::Walk(octets.try_into().expect(same)),
        }
    }

    /// Whether the model knows a saved form of this state in these octets.
    fn has_form(&self, octets: &[u8]) -> bool {
        match self {
            State::Sender(_) => saved::load_sender(octets).is_some(),
            State::Reader(_) => saved::load_reader(octets).is_some(),
            State::Walk(_) => saved::load_walk(octets).is_some(),
        }
    }

    /// What the wrapper saves after it has loaded octets for a state of this kind.
    fn linked(&self, octets: &[u8]) -> Option<Vec<u8>> {
        match self {
            State::Sender(_) => delampuk::Sender::load(octets).ok().map(|state| state.save().to_vec()),
            State::Reader(_) => delampuk::Reader::load(octets).ok().map(|state| state.save().to_vec()),
            State::Walk(_) => delampuk::Walk::load(&[], octets).ok().map(|state| state.save().to_vec()),
        }
    }
}

/// A call that saves.
#[derive(Clone, Debug)]
pub struct Save {
    /// The state.
    pub state: State,
    /// The buffer as it is lent.
    pub saved: Octets,
}

/// What a call that saves leaves.
#[derive(Debug, PartialEq)]
pub struct SaveLeft {
    /// Saved or no room.
    pub answer: u8,
    /// Nothing else changed.
    pub kept: u8,
    /// The buffer.
    pub saved: Octets,
}

impl Save {
    /// Whether the buffer is as long as the form that is written, which is the last.
    fn has_room(&self) -> bool {
        self.saved.0.len() == self.state.octets().len()
    }
}

impl Call for Save {
    type Left = SaveLeft;

    fn request(&self, request: &mut Request) {
        request.octets(b"A").octets(self.state.letter()).octets(self.state.octets()).buffers(&[&self.saved.0]);
    }

    fn left(&self, answer: &mut Answer) -> io::Result<SaveLeft> {
        let (number, kept) = (answer.octet()?, answer.octet()?);
        Ok(SaveLeft { answer: number, kept, saved: Octets(answer.buffer(self.saved.0.len())?) })
    }

    /// The wrapper lends a buffer of its own, which has the right length. Another one is asked of the server.
    fn linked(&self) -> SaveLeft {
        match self.state.linked(self.state.octets()).filter(|_| self.has_room()) {
            Some(saved) => SaveLeft { answer: DONE, kept: 1, saved: Octets(saved) },
            None => SaveLeft { answer: NO, kept: 1, saved: self.saved.clone() },
        }
    }

    fn expected(&self) -> SaveLeft {
        match self.has_room() {
            true => SaveLeft { answer: DONE, kept: 1, saved: Octets(self.state.octets().to_vec()) },
            false => SaveLeft { answer: NO, kept: 1, saved: self.saved.clone() },
        }
    }

    fn fields(&mut self) -> Vec<Field<'_>> {
        vec![self.state.field(), Field::Buffer(&mut self.saved)]
    }

    fn outcome(left: &SaveLeft) -> Vec<String> {
        vec![format!("saved {}", left.answer)]
    }
}

/// A call that loads.
#[derive(Clone, Debug)]
pub struct Load {
    /// The state as it is lent.
    pub state: State,
    /// What was saved.
    pub saved: Octets,
}

/// What a call that loads leaves.
#[derive(Debug, PartialEq)]
pub struct LoadLeft {
    /// Loaded or no form.
    pub answer: u8,
    /// The state.
    pub state: State,
}

impl Load {
    fn loaded(&self, octets: Option<&[u8]>) -> LoadLeft {
        match octets {
            Some(octets) => LoadLeft { answer: DONE, state: self.state.with(octets) },
            None => LoadLeft { answer: NO, state: self.state.clone() },
        }
    }
}

impl Call for Load {
    type Left = LoadLeft;

    fn request(&self, request: &mut Request) {
        request.octets(b"D").octets(self.state.letter()).octets(self.state.octets()).buffers(&[&self.saved.0]);
    }

    fn left(&self, answer: &mut Answer) -> io::Result<LoadLeft> {
        let (number, octets) = (answer.octet()?, answer.buffer(self.state.octets().len())?);
        Ok(LoadLeft { answer: number, state: self.state.with(&octets) })
    }

    fn linked(&self) -> LoadLeft {
        self.loaded(self.state.linked(&self.saved.0).as_deref())
    }

    fn expected(&self) -> LoadLeft {
        self.loaded(Some(&self.saved.0[..]).filter(|octets| self.state.has_form(octets)))
    }

    fn fields(&mut self) -> Vec<Field<'_>> {
        vec![self.state.field(), Field::Buffer(&mut self.saved)]
    }

    fn outcome(left: &LoadLeft) -> Vec<String> {
        vec![format!("loaded {}", left.answer)]
    }
}

//! The fresh states, and `delampuk_send`.

use std::{io, slice};

use delampuk::Sent;
use model::sender::{self, Answer as Fate};
use model::service::Flags;

use super::{Call, Octets};
use crate::linked::Room;
use crate::server::{Answer, Request};
use crate::smaller::Field;
use crate::states::{self, Reader, Sender};

/// The two fresh states.
#[derive(Clone, Debug)]
pub struct Fresh;

impl Call for Fresh {
    type Left = (Sender, Reader);

    fn request(&self, request: &mut Request) {
        request.octets(b"F");
    }

    fn left(&self, answer: &mut Answer) -> io::Result<Self::Left> {
        Ok((answer.array()?, answer.array()?))
    }

    fn linked(&self) -> Self::Left {
        (delampuk::Sender::new().save(), delampuk::Reader::new().save())
    }

    fn expected(&self) -> Self::Left {
        (states::fresh_sender(), states::fresh_reader())
    }

    fn fields(&mut self) -> Vec<Field<'_>> {
        Vec::new()
    }
}

/// `delampuk_send`.
#[derive(Clone, Debug)]
pub struct Send {
    /// The lent state.
    pub state: Sender,
    /// The switch mute; as all switches 0 or any other number.
    pub mute: u8,
    /// The offered code.
    pub code: u8,
    /// The switches A, E and T.
    pub flags: [u8; 3],
    /// The voice buffer.
    pub voice: Octets,
    /// The data buffer.
    pub lsd: Octets,
    /// The line block as it is lent.
    pub line: Octets,
}

/// What `delampuk_send` leaves.
#[derive(Debug, PartialEq)]
pub struct SendLeft {
    /// Sent, held or refused.
    pub kind: u8,
    /// The refusal's number, or 0.
    pub number: u8,
    /// The state.
    pub state: Sender,
    /// Nothing else changed.
    pub kept: u8,
    /// The line block.
    pub line: Octets,
}

impl Call for Send {
    type Left = SendLeft;

    fn request(&self, request: &mut Request) {
        request.octets(b"S").octets(&self.state).octets(&[self.mute, self.code]).octets(&self.flags);
        request.buffers(&[&self.voice.0, &self.lsd.0, &self.line.0]);
    }

    fn left(&self, answer: &mut Answer) -> io::Result<SendLeft> {
        Ok(SendLeft {
            kind: answer.octet()?,
            number: answer.octet()?,
            state: answer.array()?,
            kept: answer.octet()?,
            line: Octets(answer.buffer(self.line.0.len())?),
        })
    }

    fn linked(&self) -> SendLeft {
        let [a, e, t] = self.flags.map(|switch| switch != 0);
        let call = delampuk::Call { mute: self.mute != 0, code: self.code, a, e, t };
        let mut sender = states::linked_sender(self.state);
        let mut room = Room::of([&self.voice, &self.lsd, &self.line]);
        let [voice, lsd, line] = room.lend();
        let (kind, number) = match sender.send(&call, voice, lsd, line) {
            Ok(Sent::Sent) => (0, 0),
            Ok(Sent::Held) => (1, 0),
            Err(refusal) => (2, refusal.number()),
        };
        SendLeft { kind, number, state: sender.save(), kept: room.kept([2]), line: room.buffer(2) }
    }

    fn expected(&self) -> SendLeft {
        let [a, e, t] = self.flags.map(|switch| switch != 0);
        let call = sender::Call {
            mute: self.mute != 0,
            offered: self.code,
            flags: Flags { a, e, t },
            voice: &self.voice.0,
            data: &self.lsd.0,
        };
        let mut state = states::sender(self.state);
        let mut line = self.line.clone();
        let (kind, number, state) = match sender::send(&mut state, &call, &mut line.0) {
            Ok(Fate::Sent) => (0, 0, states::sender_octets(&state)),
            Ok(Fate::Held) => (1, 0, states::sender_octets(&state)),
            Err(refusal) => (2, refusal.number(), self.state),
        };
        SendLeft { kind, number, state, kept: 1, line }
    }

    fn fields(&mut self) -> Vec<Field<'_>> {
        vec![
            Field::Octets(&mut self.state, states::fresh_sender().into()),
            Field::Octets(slice::from_mut(&mut self.mute), vec![0]),
            Field::Octets(slice::from_mut(&mut self.code), vec![0x80]),
            Field::Octets(&mut self.flags, vec![0; 3]),
            Field::Buffer(&mut self.voice),
            Field::Buffer(&mut self.lsd),
            Field::Buffer(&mut self.line),
        ]
    }

    fn outcome(left: &SendLeft) -> Vec<String> {
        vec![format!("kind {}", left.kind), format!("number {}", left.number)]
    }
}

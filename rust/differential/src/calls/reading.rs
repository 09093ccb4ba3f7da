//! `delampuk_read`.

use std::io;

use model::reader;

use super::{by_model, by_wrapper, left_by_block, Block, Call, Octets, NO_BLOCK};
use crate::linked::Room;
use crate::server::{Answer, Request};
use crate::smaller::Field;
use crate::states::{self, Reader};

/// `delampuk_read`.
#[derive(Clone, Debug)]
pub struct Read {
    /// The state.
    pub state: Reader,
    /// The line block.
    pub line: Octets,
    /// The voice buffer as it is lent.
    pub voice: Octets,
    /// The data buffer as it is lent.
    pub lsd: Octets,
}

/// What `delampuk_read` leaves.
#[derive(Debug, PartialEq)]
pub struct ReadLeft {
    /// The state.
    pub state: Reader,
    /// A block or refused.
    pub kind: u8,
    /// The refusal's number, or 0.
    pub number: u8,
    /// The block's answer.
    pub block: Block,
    /// Nothing else changed.
    pub kept: u8,
    /// The voice buffer.
    pub voice: Octets,
    /// The data buffer.
    pub lsd: Octets,
}

impl Call for Read {
    type Left = ReadLeft;

    fn request(&self, request: &mut Request) {
        request.octets(b"R").octets(&self.state).buffers(&[&self.line.0, &self.voice.0, &self.lsd.0]);
    }

    fn left(&self, answer: &mut Answer) -> io::Result<ReadLeft> {
        Ok(ReadLeft {
            state: answer.array()?,
            kind: answer.octet()?,
            number: answer.octet()?,
            block: answer.array()?,
            kept: answer.octet()?,
            voice: Octets(answer.buffer(self.voice.0.len())?),
            lsd: Octets(answer.buffer(self.lsd.0.len())?),
        })
    }

    fn linked(&self) -> ReadLeft {
        let mut reader = states::linked_reader(self.state);
        let mut room = Room::of([&self.line, &self.voice, &self.lsd]);
        let [line, voice, lsd] = room.lend();
        let (kind, number, block) = match reader.read(line, voice, lsd) {
            Ok(block) => (0, 0, by_wrapper(block)),
            Err(refusal) => (1, refusal.number(), NO_BLOCK),
        };
        let (voice, lsd) = (room.buffer(1), room.buffer(2));
        ReadLeft { state: reader.save(), kind, number, block, kept: room.kept([1, 2]), voice, lsd }
    }

    fn expected(&self) -> ReadLeft {
        let mut state = states::reader(self.state);
        let (mut voice, mut lsd) = (self.voice.clone(), self.lsd.clone());
        let (state, kind, number, block) = match reader::read(&mut state, &self.line.0, &mut voice.0, &mut lsd.0) {
            Ok(answer) => (left_by_block(&state), 0, 0, by_model(answer)),
            Err(refusal) => (self.state, 1, refusal.number(), NO_BLOCK),
        };
        ReadLeft { state, kind, number, block, kept: 1, voice, lsd }
    }

    fn fields(&mut self) -> Vec<Field<'_>> {
        vec![
            Field::Octets(&mut self.state, states::fresh_reader().into()),
            Field::Buffer(&mut self.line),
            Field::Buffer(&mut self.voice),
            Field::Buffer(&mut self.lsd),
        ]
    }

    fn outcome(left: &ReadLeft) -> Vec<String> {
        let [standing, verdict, reading, _] = left.block;
        let block = [format!("standing {standing}"), format!("verdict {verdict}"), format!("reading {reading}")];
        let number = format!("number {}", left.number);
        block.into_iter().chain([number]).collect()
    }
}

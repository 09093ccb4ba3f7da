//! `delampuk_step`.

use std::{io, slice};

use model::recording::{Step, Walk};
use model::refusal::Refusal;

use super::{by_model, by_wrapper, left_by_block, Block, Call, Octets, NO_BLOCK};
use crate::linked::Room;
use crate::server::{Answer, Request};
use crate::smaller::Field;
use crate::states::{self, Reader};

/// `delampuk_step`.
#[derive(Clone, Debug)]
pub struct WalkStep {
    /// The reader's state.
    pub state: Reader,
    /// Whether the block before was lost: 0 or any other number.
    pub lost: u8,
    /// Where the walk stands.
    pub place: usize,
    /// The recording.
    pub recording: Octets,
    /// The voice buffer as it is lent.
    pub voice: Octets,
    /// The data buffer as it is lent.
    pub lsd: Octets,
}

/// What `delampuk_step` leaves.
#[derive(Debug, PartialEq)]
pub struct StepLeft {
    /// The reader's state.
    pub state: Reader,
    /// Whether the block before the next step was lost.
    pub lost: u8,
    /// Where the walk stands.
    pub place: usize,
    /// Block, place, end or refused.
    pub kind: u8,
    /// The refusal's number, or 0.
    pub number: u8,
    /// The block's answer.
    pub block: Block,
    /// The place found or the octets left, or 0.
    pub value: usize,
    /// Nothing else changed.
    pub kept: u8,
    /// The voice buffer.
    pub voice: Octets,
    /// The data buffer.
    pub lsd: Octets,
}

impl Call for WalkStep {
    type Left = StepLeft;

    fn request(&self, request: &mut Request) {
        request.octets(b"W").octets(&self.state).octets(&[self.lost]).number(self.place);
        request.buffers(&[&self.recording.0, &self.voice.0, &self.lsd.0]);
    }

    fn left(&self, answer: &mut Answer) -> io::Result<StepLeft> {
        Ok(StepLeft {
            state: answer.array()?,
            lost: answer.octet()?,
            place: answer.number()?,
            kind: answer.octet()?,
            number: answer.octet()?,
            block: answer.array()?,
            value: answer.number()?,
            kept: answer.octet()?,
            voice: Octets(answer.buffer(self.voice.0.len())?),
            lsd: Octets(answer.buffer(self.lsd.0.len())?),
        })
    }

    fn linked(&self) -> StepLeft {
        let mut room = Room::of([&self.recording, &self.voice, &self.lsd]);
        let [recording, voice, lsd] = room.lend();
        let octets = states::walk(self.state, self.lost, self.place);
        let mut walk = delampuk::Walk::load(recording, &octets).expect("21 octets are a walk");
        let (kind, number, block, value) = match walk.step(voice, lsd) {
            Ok(delampuk::Step::Block(block)) => (0, 0, by_wrapper(block), 0),
            Ok(delampuk::Step::Place(place)) => (1, 0, NO_BLOCK, place),
            Ok(delampuk::Step::End(left)) => (2, 0, NO_BLOCK, left),
            Err(refusal) => (3, refusal.number(), NO_BLOCK, 0),
        };
        let place = walk.place();
        let [state @ .., lost, _, _, _, _, _, _, _, _] = walk.save();
        let (voice, lsd) = (room.buffer(1), room.buffer(2));
        StepLeft { state, lost, place, kind, number, block, value, kept: room.kept([1, 2]), voice, lsd }
    }

    fn expected(&self) -> StepLeft {
        let mut walk = Walk { recording: &self.recording.0, place: self.place, searching: self.lost != 0 };
        let mut state = states::reader(self.state);
        let (mut voice, mut lsd) = (self.voice.clone(), self.lsd.clone());
        let outcome = walk.step(&mut state, &mut voice.0, &mut lsd.0);
        let (kind, number, block, value) = step_answer(outcome);
        StepLeft {
            // All but a block give back the reader as it was.
            state: if kind == 0 { left_by_block(&state) } else { self.state },
            // A mark that stays set keeps its number.
            lost: if walk.searching { self.lost.max(1) } else { 0 },
            place: walk.place,
            kind,
            number,
            block,
            value,
            kept: 1,
            voice,
            lsd,
        }
    }

    fn fields(&mut self) -> Vec<Field<'_>> {
        vec![
            Field::Recording(&mut self.recording, &mut self.place),
            Field::Octets(&mut self.state, states::fresh_reader().into()),
            Field::Octets(slice::from_mut(&mut self.lost), vec![0]),
            Field::Buffer(&mut self.voice),
            Field::Buffer(&mut self.lsd),
        ]
    }

    fn outcome(left: &StepLeft) -> Vec<String> {
        vec![format!("kind {}", left.kind), format!("number {}", left.number)]
    }
}

/// Kind, number, block and value.
fn step_answer(outcome: Result<Step, Refusal>) -> (u8, u8, Block, usize) {
    match outcome {
        Ok(Step::Block(answer)) => (0, 0, by_model(answer), 0),
        Ok(Step::Place(place)) => (1, 0, NO_BLOCK, place),
        Ok(Step::End(left)) => (2, 0, NO_BLOCK, left),
        Err(refusal) => (3, refusal.number(), NO_BLOCK, 0),
    }
}

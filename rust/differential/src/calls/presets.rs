//! `delampuk_read_preset` and `delampuk_write_preset`.

use std::io;

use model::preset;

use super::Call;
use crate::server::{Answer, Request};
use crate::smaller::Field;
use crate::states::{self, Sender};

/// A driver that does not look at the number keeps its state and offers "data off", (011)[0].
const DATA_OFF: u8 = 0x60;

/// `delampuk_read_preset`.
#[derive(Clone, Debug)]
pub struct ReadPreset {
    /// The state as it is lent.
    pub state: Sender,
    /// The sixteen bits.
    pub bits: u16,
}

impl Call for ReadPreset {
    /// State, code to offer, number.
    type Left = (Sender, u8, u8);

    fn request(&self, request: &mut Request) {
        request.octets(b"G").octets(&self.state).octets(&self.bits.to_le_bytes());
    }

    fn left(&self, answer: &mut Answer) -> io::Result<Self::Left> {
        Ok((answer.array()?, answer.octet()?, answer.octet()?))
    }

    /// The wrapper lends a state of its own, and gives it away where the preset is read.
    fn linked(&self) -> Self::Left {
        match delampuk::Preset::read(self.bits) {
            Ok(preset) => (preset.sender.save(), preset.offer, 0),
            Err(refusal) => (self.state, DATA_OFF, refusal.number()),
        }
    }

    fn expected(&self) -> Self::Left {
        match preset::read(self.bits) {
            Ok((state, offer)) => (states::sender_octets(&state), offer, 0),
            Err(refusal) => (self.state, DATA_OFF, refusal.number()),
        }
    }

    /// Sixteen bits are small as they are.
    fn fields(&mut self) -> Vec<Field<'_>> {
        vec![Field::Octets(&mut self.state, states::fresh_sender().into())]
    }
}

/// `delampuk_write_preset`.
#[derive(Clone, Debug)]
pub struct WritePreset {
    /// The state.
    pub state: Sender,
}

impl Call for WritePreset {
    /// Bits, number.
    type Left = (u16, u8);

    fn request(&self, request: &mut Request) {
        request.octets(b"P").octets(&self.state);
    }

    fn left(&self, answer: &mut Answer) -> io::Result<Self::Left> {
        Ok((u16::from_le_bytes(answer.array()?), answer.octet()?))
    }

    fn linked(&self) -> Self::Left {
        match states::linked_sender(self.state).preset() {
            Ok(bits) => (bits, 0),
            Err(refusal) => (0, refusal.number()),
        }
    }

    fn expected(&self) -> Self::Left {
        match preset::write(&states::sender(self.state)) {
            Ok(bits) => (bits, 0),
            Err(refusal) => (0, refusal.number()),
        }
    }

    fn fields(&mut self) -> Vec<Field<'_>> {
        vec![Field::Octets(&mut self.state, states::fresh_sender().into())]
    }
}

//! Presets.

use std::fmt;

use crate::code::Hex;
use crate::ffi;
use crate::refusal::Refusal;
use crate::sender::Sender;

/// What a preset of sixteen bits stands for: an audio value in the highest five bits, a data value in the next five,
/// and six zeros.
#[derive(Clone, PartialEq, Eq)]
pub struct Preset {
    /// A sender with that audio chosen. Its command goes out with the first block that is sent unmuted.
    pub sender: Sender,
    /// The code of the data command, to be offered until it is sent.
    pub offer: u8,
}

impl Preset {
    /// Reads a preset. [`Sender::preset`] writes one.
    ///
    /// # Errors
    ///
    /// Refusal 11.
    pub fn read(bits: u16) -> Result<Preset, Refusal> {
        let (state, answer) = ffi::read_preset(bits);
        Refusal::unless_zero(answer.number)?;
        Ok(Preset { sender: Sender::from_state(state), offer: answer.offer })
    }
}

impl fmt::Debug for Preset {
    fn fmt(&self, out: &mut fmt::Formatter) -> fmt::Result {
        out.debug_struct("Preset").field("sender", &self.sender).field("offer", &Hex(self.offer)).finish()
    }
}

//! Sending blocks.

use std::fmt;

use delampuk_sys::{OCTETS_SAVED_SENDER, SEND_HELD, SEND_SENT};

use crate::code::Hex;
use crate::ffi;
use crate::mode::{Due, Mode};
use crate::refusal::{unknown, Refusal};
use crate::saved::{loaded, saved, NoSavedForm};

/// What a sending call is given beside the buffers.
#[derive(Clone, Copy, PartialEq, Eq, Hash)]
pub struct Call {
    /// Whether the microphone is off. Nothing of the voice buffer goes into a block that is sent with mute set.
    pub mute: bool,
    /// The BAS code to offer: its highest three bits are the attribute, the lower five the value.
    pub code: u8,
    /// The A bit: this end has lost alignment.
    pub a: bool,
    /// The E bit: this end reads CRC errors.
    pub e: bool,
    /// The terminal alarm. It shows in the last block of each multiframe.
    pub t: bool,
}

impl Call {
    /// Offers a code, with every switch off.
    pub const fn offer(code: u8) -> Call {
        Call { mute: false, code, a: false, e: false, t: false }
    }

    /// The same with mute set.
    pub const fn muted(self) -> Call {
        Call { mute: true, ..self }
    }
}

impl fmt::Debug for Call {
    fn fmt(&self, out: &mut fmt::Formatter) -> fmt::Result {
        let Call { mute, code, a, e, t } = self;
        let mut call = out.debug_struct("Call");
        call.field("mute", mute).field("code", &Hex(*code)).field("a", a).field("e", e).field("t", t).finish()
    }
}

/// What became of the offered code.
#[derive(Clone, Copy, Debug, PartialEq, Eq, Hash)]
pub enum Sent {
    /// It went out in this block.
    Sent,
    /// A word of the library's own went in its place: "audio off" for mute, or the chosen audio after mute. Offer the
    /// code again.
    Held,
}

/// The sending end of a channel: what it keeps between blocks.
#[derive(Clone, Debug, PartialEq, Eq)]
pub struct Sender {
    state: ffi::Sender,
}

impl Sender {
    /// The length of a saved sender.
    pub const OCTETS: usize = OCTETS_SAVED_SENDER;

    /// A sender before its first block: audio and data off, block 1 of 8 next, no item due.
    pub fn new() -> Sender {
        Sender::from_state(ffi::start_sender())
    }

    pub(crate) fn from_state(state: ffi::Sender) -> Sender {
        Sender { state }
    }

    /// Frames one block of 20 ms into `line` and moves on to the next.
    ///
    /// `voice` has [`VOICE`](crate::VOICE) octets, `lsd` has [`LSD`](crate::LSD) and `line` has [`LINE`](crate::LINE);
    /// other lengths are refused. Bits are packed most significant first. How much of the
    /// streams counts is told by [`Mode::counts`] of [`Sender::mode`]. All of `line` is written. A command takes hold in
    /// the next block.
    ///
    /// # Errors
    ///
    /// Refusals 1 to 8; the sender and `line` are then as they were.
    pub fn send(&mut self, call: &Call, voice: &[u8], lsd: &[u8], line: &mut [u8]) -> Result<Sent, Refusal> {
        let answer = ffi::send(&mut self.state, call, voice, lsd, line);
        Refusal::unless_zero(answer.number)?;
        match answer.kind {
            SEND_SENT => Ok(Sent::Sent),
            SEND_HELD => Ok(Sent::Held),
            kind => unknown("sending", kind),
        }
    }

    /// What the next block is cut by.
    pub fn mode(&self) -> Mode {
        Mode::from_state(ffi::tell_sender(&self.state).mode)
    }

    /// The chosen audio, a value of (000), which is off in [`Sender::mode`] while it is muted.
    pub fn chosen(&self) -> u8 {
        ffi::tell_sender(&self.state).chosen
    }

    /// What the next word is: a plain word or an item, for a sender opens no message.
    pub fn due(&self) -> Due {
        Due::from_numbers(ffi::tell_sender(&self.state).due, 0)
    }

    /// The chosen audio and the data in force as a preset's sixteen bits.
    ///
    /// # Errors
    ///
    /// Refusal 1.
    pub fn preset(&self) -> Result<u16, Refusal> {
        let answer = ffi::write_preset(&self.state);
        Refusal::unless_zero(answer.number)?;
        Ok(answer.bits)
    }

    /// The sender as octets, to be saved. Later versions load them too.
    pub fn save(&self) -> [u8; Sender::OCTETS] {
        saved(|octets| ffi::save_sender(&self.state, octets))
    }

    /// A sender that this version or an earlier one has saved. Any octets are taken; its calls refuse with 1 where they
    /// are out of range.
    ///
    /// # Errors
    ///
    /// Where no saved sender has so many octets.
    pub fn load(saved: &[u8]) -> Result<Sender, NoSavedForm> {
        loaded(ffi::load_sender(saved), saved.len()).map(Sender::from_state)
    }
}

impl Default for Sender {
    fn default() -> Sender {
        Sender::new()
    }
}

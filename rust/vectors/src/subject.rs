//! What is held to the cases.

use crate::json::Json;
use crate::part::Part;
use crate::states::{Reader, Sender};
use crate::unfit::Unfit;

/// What a sending call is given beside the state and the line block.
#[derive(Clone, Debug)]
pub struct Call {
    /// Whether the microphone is off.
    pub mute: bool,
    /// The offered code.
    pub code: u8,
    /// A, E and T.
    pub flags: [bool; 3],
    /// The voice buffer, of any length.
    pub voice: Vec<u8>,
    /// The data buffer, of any length.
    pub lsd: Vec<u8>,
}

impl Call {
    /// The call that a case has, in its order.
    pub fn read([mute, code, a, e, t, voice, lsd]: [&Part; 7]) -> Result<Call, Unfit> {
        if let Json::Fields(_) = code.value {
            return Err(code.unfit("offers a message, which only a later request sends"));
        }
        Ok(Call {
            mute: mute.switch()?,
            code: code.octet()?,
            flags: [a.switch()?, e.switch()?, t.switch()?],
            voice: voice.octets()?,
            lsd: lsd.octets()?,
        })
    }
}

/// The answer to a block, in the cases' names.
#[derive(Clone, Copy, Debug)]
pub struct Block {
    /// Waiting, read or lost.
    pub standing: &'static str,
    /// None, good or bad.
    pub verdict: &'static str,
    /// What the word was taken for.
    pub word: &'static str,
    /// Its code, where one was read.
    pub code: Option<u8>,
}

/// The library or the model. A refusal is its number.
pub trait Subject {
    /// Its name in messages.
    const NAME: &'static str;

    /// A sender of its own.
    type Sender;

    /// A reader of its own.
    type Reader;

    /// A sender before its first block.
    fn fresh_sender() -> Self::Sender;

    /// A sender in any state.
    fn forged_sender(state: &Sender) -> Self::Sender;

    /// The state of a sender.
    fn sender_state(sender: &Self::Sender) -> Sender;

    /// Frames a block: the cases' name for what became of the code.
    fn send(sender: &mut Self::Sender, call: &Call, line: &mut [u8]) -> Result<&'static str, u8>;

    /// Reads a preset: the sender, and the data code to offer.
    fn read_preset(octets: [u8; 2]) -> Result<(Self::Sender, u8), u8>;

    /// Writes a preset.
    fn write_preset(sender: &Self::Sender) -> Result<[u8; 2], u8>;

    /// A reader before its first block.
    fn fresh_reader() -> Self::Reader;

    /// A reader in any state.
    fn forged_reader(state: &Reader) -> Self::Reader;

    /// The state of a reader.
    fn reader_state(reader: &Self::Reader) -> Reader;

    /// Takes a block apart.
    fn read(reader: &mut Self::Reader, line: &[u8], voice: &mut [u8], lsd: &mut [u8]) -> Result<Block, u8>;

    /// The first place from `start` on where a block begins.
    fn find(recording: &[u8], start: usize) -> Result<usize, u8>;

    /// The listing of a recording.
    fn list(recording: &[u8]) -> String;
}

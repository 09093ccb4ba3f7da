//! A channel with nothing on it, and the codes that the tests use.

use delampuk::{Call, Refusal, Sender, Sent, LINE, LSD, VOICE};

/// (100)\[0\]: nothing happens.
pub const IDLE: u8 = 0x80;
/// (000)\[31\].
pub const AUDIO_OFF: u8 = 0x1F;
/// (000)\[25\], audio of six bits.
pub const SPEECH: u8 = 0x19;
/// The octets of a voice buffer that count then.
pub const SPEECH_OCTETS: usize = 120;
/// (011)\[5\], data in bit 7, beside which there is room for audio of six bits.
pub const CUES: u8 = 0x65;
/// (111)\[16\]: the next word is an item.
pub const ESCAPE: u8 = 0xF0;

/// Offers a code with silence in both streams; gives the answer and the block.
pub fn send(sender: &mut Sender, call: Call) -> Result<(Sent, [u8; LINE]), Refusal> {
    let mut line = [0; LINE];
    let sent = sender.send(&call, &[0; VOICE], &[0; LSD], &mut line)?;
    Ok((sent, line))
}

/// A sender to which these codes were offered.
pub fn sender_after(codes: &[u8]) -> Sender {
    let mut sender = Sender::new();
    for &code in codes {
        send(&mut sender, Call::offer(code)).expect("the tests offer what is carried");
    }
    sender
}

/// A recording of so many idle blocks.
pub fn idle_blocks(count: usize) -> Vec<u8> {
    let mut sender = Sender::new();
    let mut block = || send(&mut sender, Call::offer(IDLE)).expect("idle blocks are carried").1;
    (0..count).flat_map(|_| block()).collect()
}

//! Frames a short lesson in which mute is pressed just after an escape, reads it back, and prints both as a table:
//!
//! ```text
//! cargo run --offline --release -p delampuk --example lesson
//! ```
//!
//! The word after an escape is an item and no command, whatever it says. So mute's "audio off" has to wait for a block;
//! the microphone is silent from the first muted block on.

use std::error::Error;
use std::io::{self, Write};

use delampuk::{Call, Reader, Sender, LINE, LSD, VOICE};

/// (100)\[0\], which changes nothing.
const IDLE: Call = Call::offer(0x80);
/// (000)\[25\], audio of six bits.
const SPEECH: Call = Call::offer(0x19);
/// (111)\[16\]: the next word is an item.
const ESCAPE: Call = Call::offer(0xF0);
/// An item; as a command it would be audio of seven bits.
const ITEM: Call = Call::offer(0x12);

/// Six idle blocks, in which the far end finds its place, and then the lesson.
const LESSON: [Call; 14] =
    [IDLE, IDLE, IDLE, IDLE, IDLE, IDLE, SPEECH, IDLE, ESCAPE, ITEM.muted(), IDLE.muted(), IDLE.muted(), IDLE, IDLE];

/// Sends the lesson, reads it, and writes a line for each block.
pub fn run(mut out: impl Write) -> Result<(), Box<dyn Error>> {
    let (mut sender, mut reader) = (Sender::new(), Reader::new());
    let (mut line, mut heard, mut cues) = ([0; LINE], [0; VOICE], [0; LSD]);
    writeln!(out, "block  offered  mute  answer  far end  word                heard")?;
    for (number, call) in LESSON.iter().enumerate() {
        let voice = [0x11 * number as u8; VOICE];
        let answer = sender.send(call, &voice, &[0; LSD], &mut line)?;
        let counts = reader.mode().counts().voice_octets;
        let block = reader.read(&line, &mut heard, &mut cues)?;
        let mute = if call.mute { "yes" } else { "no" };
        let [answer, standing, word] =
            [format!("{answer:?}"), format!("{:?}", block.standing), format!("{:?}", block.word)];
        let heard = sound(&heard[..counts], &voice[..counts]);
        writeln!(out, "{number:>5}  {:>7X}  {mute:<4}  {answer:<6}  {standing:<7}  {word:<18}  {heard}", call.code)?;
    }
    Ok(())
}

/// What the far end hears of a block, beside what was said into the microphone.
fn sound(heard: &[u8], said: &[u8]) -> &'static str {
    if heard.is_empty() {
        "nothing"
    } else if heard == said {
        "the microphone"
    } else if heard.iter().all(|&octet| octet == 0xFF) {
        "ones"
    } else {
        "something else"
    }
}

fn main() -> Result<(), Box<dyn Error>> {
    run(io::stdout().lock())
}

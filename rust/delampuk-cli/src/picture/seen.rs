//! What there is to show of each block, out of the sender's and the reader's answers.

use delampuk::{explain, Block, Call, CodeKind, Due, Mode, Reader, Refusal, Sender, Sent, Standing, Verdict, Word};
use delampuk::{LINE, LSD, VOICE};

/// What a block has in the places of the voice.
#[derive(Clone, Copy, Debug, PartialEq, Eq)]
pub enum Microphone {
    /// There are no such places, or nothing is read.
    None,
    /// Ones, as a muted block has.
    Ones,
    /// The voice.
    Carried,
}

/// What a word is. In a column of several blocks the last of these shows.
#[derive(Clone, Copy, Debug, PartialEq, Eq, PartialOrd, Ord)]
pub enum Kind {
    /// Not read: the reader waits or has lost alignment.
    NotRead,
    /// A plain word that changes nothing.
    Idle,
    /// A plain word that says what the next one is.
    Opener,
    /// A word of a message.
    Message,
    /// An item.
    Item,
    /// A command.
    Command,
    /// The library's own command, in place of the code that was offered.
    Own,
    /// An item of attribute 111, or a command that is not followed.
    Barred,
    /// No code is near enough.
    Unreadable,
}

/// What there is to show of one block.
#[derive(Clone, Copy, Debug, PartialEq, Eq)]
pub struct Seen {
    /// Whether mute is set; a recording does not tell.
    pub mute: Option<bool>,
    /// The places of the voice.
    pub microphone: Microphone,
    /// What the word is.
    pub kind: Kind,
    /// The word's code, where there is one.
    pub code: Option<u8>,
    /// The code that the library's own word has put off.
    pub held: Option<u8>,
    /// What the block is cut by; none where nothing is read.
    pub mode: Option<Mode>,
    /// The CRC's verdict; a sender has none.
    pub verdict: Verdict,
    /// How a reader took the block; a sender's are all read.
    pub standing: Standing,
    /// The octet where alignment was found again just before this block.
    pub found: Option<u64>,
}

/// A call that was refused, and how many blocks there were before it.
#[derive(Clone, Copy, Debug, PartialEq, Eq)]
pub struct Refused {
    /// The blocks before it.
    pub before: usize,
    /// The offered code.
    pub code: u8,
    /// Why.
    pub refusal: Refusal,
}

/// Makes one call and tells what the block has. The line is as it was where the call is refused.
pub fn send(sender: &mut Sender, call: &Call, voice: &[u8; VOICE], line: &mut [u8; LINE]) -> Result<Seen, Refusal> {
    let (mode, due) = (sender.mode(), sender.due());
    let sent = sender.send(call, voice, &[0; LSD], line)?;
    // Mute's "audio off" and the release both command what is in force after them.
    let (kind, code, held) = match sent {
        Sent::Held => (Kind::Own, sender.mode().audio, Some(call.code)),
        Sent::Sent if due == Due::Item => (Kind::Item, call.code, None),
        Sent::Sent => (plain(call.code), call.code, None),
    };
    let microphone = match mode.counts().voice_octets {
        0 => Microphone::None,
        _ if call.mute => Microphone::Ones,
        _ => Microphone::Carried,
    };
    Ok(Seen {
        mute: Some(call.mute),
        microphone,
        kind,
        code: Some(code),
        held,
        mode: Some(mode),
        verdict: Verdict::None,
        standing: Standing::Read,
        found: None,
    })
}

/// Reads one block and tells what a reader makes of it.
pub fn read(reader: &mut Reader, line: &[u8]) -> Result<Seen, Refusal> {
    let (mut voice, mut lsd) = ([0; VOICE], [0; LSD]);
    let mode = reader.mode();
    let block = reader.read(line, &mut voice, &mut lsd)?;
    Ok(heard(&block, mode, &voice))
}

/// A block as a reader tells it, with the mode that it was cut by and the voice that it gave.
pub fn heard(block: &Block, mode: Mode, voice: &[u8]) -> Seen {
    let is_read = block.standing == Standing::Read;
    let voice = if is_read { &voice[..mode.counts().voice_octets] } else { &[] };
    let microphone = match voice {
        [] => Microphone::None,
        octets if octets.iter().all(|&octet| octet == 0xFF) => Microphone::Ones,
        _ => Microphone::Carried,
    };
    Seen {
        mute: None,
        microphone,
        kind: reading(block.word),
        code: block.word.code(),
        held: None,
        mode: is_read.then_some(mode),
        verdict: block.verdict,
        standing: block.standing,
        found: None,
    }
}

fn reading(word: Word) -> Kind {
    match word {
        Word::Mended(code) => plain(code),
        Word::Item(_) => Kind::Item,
        Word::Message(_) => Kind::Message,
        Word::ForbiddenItem(_) | Word::NotFollowed(_) => Kind::Barred,
        Word::Unreadable => Kind::Unreadable,
        Word::NotRead => Kind::NotRead,
    }
}

/// What a plain word is.
fn plain(code: u8) -> Kind {
    match explain(code) {
        CodeKind::Neutral | CodeKind::Audio(_) | CodeKind::Lsd(_) => Kind::Command,
        CodeKind::Escape | CodeKind::Message => Kind::Opener,
        CodeKind::Other => Kind::Idle,
    }
}

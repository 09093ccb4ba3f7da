//! A session of sending calls, each told on standard error.

use std::ffi::OsStr;
use std::fs;
use std::io::{self, Write};

use delampuk::{Call, Preset, Refusal, Sender, Sent, LINE, LSD, VOICE};

use crate::stop::{Outcome, Stop};
use crate::supply::Supply;

/// Where the next block's number stands in a saved sender.
const BLOCK: usize = 3;

/// How far the sending is.
pub struct Session {
    sender: Sender,
    voice: Supply,
    data: Option<Supply>,
    /// The number of the last call.
    number: u64,
    /// By which numbers calls were refused, and how often.
    refused: Vec<(Refusal, u64)>,
}

impl Session {
    /// A session before its first call.
    pub fn new(sender: Sender, voice: Supply, data: Option<Supply>) -> Session {
        Session { sender, voice, data, number: 0, refused: Vec::new() }
    }

    /// Makes one call. It is tried with silence on a copy first, for one that is refused takes no voice and no data.
    pub fn make(&mut self, call: &Call) -> Outcome {
        self.number += 1;
        let mut line = [0; LINE];
        match self.sender.clone().send(call, &[0; VOICE], &[0; LSD], &mut line) {
            Ok(_) => self.accepted(call, &mut line),
            Err(refusal) => {
                self.count(refusal);
                tell(&format!("call {}: {:02X} refused {}\n", self.number, call.code, refusal.number()))
            }
        }
    }

    fn accepted(&mut self, call: &Call, line: &mut [u8; LINE]) -> Outcome {
        let counts = self.sender.mode().counts();
        let (mut voice, mut lsd) = ([0; VOICE], [0; LSD]);
        if !call.mute {
            self.voice.take(&mut voice[..counts.voice_octets])?;
        }
        if let Some(data) = &mut self.data {
            data.take(&mut lsd[..(counts.lsd_bits + 7) / 8])?;
        }
        let block = self.sender.save()[BLOCK];
        let sent = self.sender.send(call, &voice, &lsd, line)?;
        write_block(line)?;
        let (number, code) = (self.number, call.code);
        match sent {
            Sent::Sent => tell(&format!("call {number}: {code:02X} sent in block {block}\n")),
            Sent::Held => {
                // mute's "audio off" and the release both command the audio that is in force after them, a value of (000)
                let went = self.sender.mode().audio;
                tell(&format!("call {number}: {code:02X} held, {went:02X} went in block {block}\n"))
            }
        }
    }

    fn count(&mut self, refusal: Refusal) {
        match self.refused.iter_mut().find(|(known, _)| *known == refusal) {
            Some((_, times)) => *times += 1,
            None => self.refused.push((refusal, 1)),
        }
    }

    /// Saves the sender.
    pub fn save(&self, file: &OsStr) -> Outcome {
        fs::write(file, self.sender.save())
            .map_err(|error| Stop::Fault(format!("{} cannot be written: {error}", file.to_string_lossy())))
    }

    /// Tells what was missing, and what was refused.
    pub fn end(&self) -> Outcome {
        let data = self.data.as_ref().and_then(|data| data.shortage("data"));
        for shortage in self.voice.shortage("voice").into_iter().chain(data) {
            tell(&shortage)?;
        }
        if self.refused.is_empty() {
            return Ok(());
        }
        let told = self.refused.iter().map(|(refusal, times)| match times {
            1 => format!("1 call {refusal}"),
            _ => format!("{times} calls {refusal}"),
        });
        Err(Stop::Fault(told.collect::<Vec<_>>().join("; ")))
    }
}

/// A sender out of a file.
pub fn load(file: &OsStr) -> Result<Sender, Stop> {
    let name = file.to_string_lossy();
    let saved = fs::read(file).map_err(|error| Stop::unread(&name, error))?;
    Sender::load(&saved).map_err(|error| Stop::Fault(format!("{name}: {error}")))
}

/// A preset's sender. The code for its data is told, which the calls have to offer.
pub fn from_preset(bits: u16) -> Result<Sender, Stop> {
    let Preset { sender, offer } = Preset::read(bits)?;
    tell(&format!("preset {bits:04X}: offer {offer:02X} for its data\n"))?;
    Ok(sender)
}

/// Writes a block at once, for somebody may wait for it.
fn write_block(line: &[u8]) -> Outcome {
    let mut out = io::stdout().lock();
    out.write_all(line).and_then(|()| out.flush()).map_err(Stop::unwritten)
}

/// Writes to standard error.
fn tell(line: &str) -> Outcome {
    io::stderr().write_all(line.as_bytes()).map_err(Stop::unwritten)
}

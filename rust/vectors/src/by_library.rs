//! The library, called through its wrapper. Saved forms, of which any octets load, carry forged states in and all states
//! out.

use delampuk::{Refusal, Sent, Standing, Verdict, Word};

use crate::states::{Reader, Sender};
use crate::subject::{Block, Call, Subject};

/// The library that is linked into this process.
pub struct Library;

impl Subject for Library {
    const NAME: &'static str = "library";

    type Sender = delampuk::Sender;
    type Reader = delampuk::Reader;

    fn fresh_sender() -> delampuk::Sender {
        delampuk::Sender::new()
    }

    fn forged_sender(state: &Sender) -> delampuk::Sender {
        let Sender { chosen, in_force, lsd, block, due, remainder } = *state;
        delampuk::Sender::load(&[chosen, in_force, lsd, block, due, remainder]).expect("a saved sender has six octets")
    }

    fn sender_state(sender: &delampuk::Sender) -> Sender {
        let [chosen, in_force, lsd, block, due, remainder] = sender.save();
        Sender { chosen, in_force, lsd, block, due, remainder }
    }

    fn send(sender: &mut delampuk::Sender, call: &Call, line: &mut [u8]) -> Result<&'static str, u8> {
        let [a, e, t] = call.flags;
        let offered = delampuk::Call { mute: call.mute, code: call.code, a, e, t };
        match sender.send(&offered, &call.voice, &call.lsd, line).map_err(Refusal::number)? {
            Sent::Sent => Ok("sent"),
            Sent::Held => Ok("held"),
        }
    }

    fn read_preset(octets: [u8; 2]) -> Result<(delampuk::Sender, u8), u8> {
        let preset = delampuk::Preset::read(u16::from_be_bytes(octets)).map_err(Refusal::number)?;
        Ok((preset.sender, preset.offer))
    }

    fn write_preset(sender: &delampuk::Sender) -> Result<[u8; 2], u8> {
        sender.preset().map(u16::to_be_bytes).map_err(Refusal::number)
    }

    fn fresh_reader() -> delampuk::Reader {
        delampuk::Reader::new()
    }

    fn forged_reader(state: &Reader) -> delampuk::Reader {
        let Reader { mode: [audio, lsd], kept: [kept_audio, kept_lsd], due: [kind, words], .. } = *state;
        let Reader { align_run, pattern_run, firsts, has_before, remainder, .. } = *state;
        let block = state.place.unwrap_or(0);
        let modes = [audio, lsd, kept_audio, kept_lsd];
        let rest = [align_run, block, firsts, pattern_run, kind, words, has_before, remainder];
        delampuk::Reader::load(&[&modes[..], &rest].concat()).expect("a saved reader has twelve octets")
    }

    fn reader_state(reader: &delampuk::Reader) -> Reader {
        let [audio, lsd, kept_audio, kept_lsd, align_run, block, firsts, pattern_run, kind, words, has_before, remainder] =
            reader.save();
        Reader {
            mode: [audio, lsd],
            kept: [kept_audio, kept_lsd],
            place: (block != 0).then_some(block),
            due: [kind, words],
            align_run,
            pattern_run,
            firsts,
            has_before,
            remainder,
        }
    }

    fn read(reader: &mut delampuk::Reader, line: &[u8], voice: &mut [u8], lsd: &mut [u8]) -> Result<Block, u8> {
        reader.read(line, voice, lsd).map(block).map_err(Refusal::number)
    }

    fn find(recording: &[u8], start: usize) -> Result<usize, u8> {
        delampuk::search(recording, start).map_err(Refusal::number)
    }

    fn list(recording: &[u8]) -> String {
        let mut text = vec![0; delampuk::LISTING_MAX];
        let length = delampuk::list(recording, &mut text).expect("every listing fits");
        String::from_utf8_lossy(&text[..length]).into_owned()
    }
}

fn block(answer: delampuk::Block) -> Block {
    Block {
        standing: match answer.standing {
            Standing::Waiting => "waiting",
            Standing::Read => "read",
            Standing::Lost => "lost",
        },
        verdict: match answer.verdict {
            Verdict::None => "none",
            Verdict::Good => "good",
            Verdict::Bad => "bad",
        },
        word: match answer.word {
            Word::Mended(_) => "code",
            Word::Item(_) => "item",
            Word::Message(_) => "message word",
            Word::ForbiddenItem(_) => "forbidden item",
            Word::NotFollowed(_) => "not followed",
            Word::Unreadable => "unreadable",
            Word::NotRead => "not read",
        },
        code: answer.word.code(),
    }
}

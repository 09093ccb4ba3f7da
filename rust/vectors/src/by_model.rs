//! The model, whose states are put together field by field, so that a saved form which it shares with the library is not
//! on the way.

use model::codes::Mode;
use model::listing::{self, standing_name, verdict_name};
use model::reader::{self, BlockAnswer, ReaderState};
use model::refusal::Refusal;
use model::sender::{self, Answer, SenderState};
use model::service::Flags;
use model::slots::{Due, Reading};
use model::{bits, preset, recording};

use crate::states::{Reader, Sender};
use crate::subject::{Block, Call, Subject};

/// The model of the documents.
pub struct Model;

impl Subject for Model {
    const NAME: &'static str = "model";

    type Sender = SenderState;
    type Reader = ReaderState;

    fn fresh_sender() -> SenderState {
        SenderState::FRESH
    }

    fn forged_sender(state: &Sender) -> SenderState {
        let Sender { chosen, in_force, lsd, block, due, remainder } = *state;
        SenderState { chosen, in_force, data: lsd, block, item_due: due != 0, remainder }
    }

    fn sender_state(sender: &SenderState) -> Sender {
        let SenderState { chosen, in_force, data, block, item_due, remainder } = *sender;
        Sender { chosen, in_force, lsd: data, block, due: item_due.into(), remainder }
    }

    fn send(state: &mut SenderState, call: &Call, line: &mut [u8]) -> Result<&'static str, u8> {
        let [a, e, t] = call.flags;
        let Call { mute, code, ref voice, ref lsd, .. } = *call;
        let call = sender::Call { mute, offered: code, flags: Flags { a, e, t }, voice, data: lsd };
        match sender::send(state, &call, line).map_err(Refusal::number)? {
            Answer::Sent => Ok("sent"),
            Answer::Held => Ok("held"),
        }
    }

    fn read_preset(octets: [u8; 2]) -> Result<(SenderState, u8), u8> {
        preset::read_octets(&octets).map_err(Refusal::number)
    }

    fn write_preset(sender: &SenderState) -> Result<[u8; 2], u8> {
        preset::write(sender).map(u16::to_be_bytes).map_err(Refusal::number)
    }

    fn fresh_reader() -> ReaderState {
        ReaderState::FRESH
    }

    fn forged_reader(state: &Reader) -> ReaderState {
        let mode = |[audio, data]: [u8; 2]| Mode { audio, data };
        ReaderState {
            mode: mode(state.mode),
            kept: mode(state.kept),
            wrong_words: state.align_run,
            block: state.place,
            wrong_patterns: state.pattern_run,
            first_bits: std::array::from_fn(|index| bits::bit(state.firsts, index + 3)),
            due: match state.due {
                [0, _] => Due::Nothing,
                [1, _] => Due::Item,
                [2, _] => Due::Count,
                [_, words] => Due::Message(words.into()),
            },
            before: state.has_before != 0,
            remainder: state.remainder,
        }
    }

    fn reader_state(reader: &ReaderState) -> Reader {
        let mode = |mode: Mode| [mode.audio, mode.data];
        Reader {
            mode: mode(reader.mode),
            kept: mode(reader.kept),
            place: reader.block,
            due: match reader.due {
                Due::Nothing => [0, 0],
                Due::Item => [1, 0],
                Due::Count => [2, 0],
                Due::Message(words) => [3, words.try_into().expect("a message has no more than 255 words")],
            },
            align_run: reader.wrong_words,
            pattern_run: reader.wrong_patterns,
            firsts: bits::number(&reader.first_bits) as u8,
            has_before: reader.before.into(),
            remainder: reader.remainder,
        }
    }

    fn read(state: &mut ReaderState, line: &[u8], voice: &mut [u8], lsd: &mut [u8]) -> Result<Block, u8> {
        reader::read(state, line, voice, lsd).map(block).map_err(Refusal::number)
    }

    fn find(recording: &[u8], start: usize) -> Result<usize, u8> {
        recording::search(recording, start).map_err(Refusal::number)
    }

    fn list(recording: &[u8]) -> String {
        listing::listing(recording)
    }
}

fn block(answer: BlockAnswer) -> Block {
    Block {
        standing: standing_name(answer.standing),
        verdict: verdict_name(answer.verdict),
        word: match answer.word {
            Reading::Mended(_) => "code",
            Reading::Item(_) => "item",
            Reading::MessageWord(_) => "message word",
            Reading::ForbiddenItem(_) => "forbidden item",
            Reading::NotFollowed(_) => "not followed",
            Reading::Unreadable => "unreadable",
            Reading::NotRead => "not read",
        },
        code: answer.word.code(),
    }
}

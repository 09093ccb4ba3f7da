//! `model`: the plain model of document 01, its states turned into the common structs and back.

use model::codes;
use model::listing;
use model::reader::{self, ReaderState, Standing, Verdict};
use model::recording;
use model::refusal::Refusal;
use model::sender::{self, Answer, Call, SenderState};
use model::service::Flags;
use model::slots::{Due, Reading};

use super::Contestant;
use crate::forms::{self, BlockAnswer, Mode, Offer, ReadAnswer, Reader, SearchAnswer, SendAnswer, Sender};

/// The model.
pub struct Model;

impl Contestant for Model {
    fn name(&self) -> &'static str {
        "model"
    }

    fn send(&self, state: &mut Sender, offer: &Offer, line: &mut [u8]) -> SendAnswer {
        let [a, e, t] = offer.flags;
        let call = Call {
            mute: offer.mute,
            offered: offer.code,
            flags: Flags { a, e, t },
            voice: offer.voice,
            data: offer.lsd,
        };
        let mut held = sender_in(state);
        match sender::send(&mut held, &call, line) {
            Ok(answer) => {
                *state = sender_out(&held);
                match answer {
                    Answer::Sent => forms::SENT,
                    Answer::Held => forms::HELD,
                }
            }
            Err(refusal) => forms::send_refused(refusal.number()),
        }
    }

    fn read(&self, state: &mut Reader, line: &[u8], voice: &mut [u8], lsd: &mut [u8]) -> ReadAnswer {
        let mut held = reader_in(state);
        match reader::read(&mut held, line, voice, lsd) {
            Ok(answer) => {
                *state = reader_out(&held);
                forms::block(block_answer(&answer))
            }
            Err(refusal) => forms::read_refused(refusal.number()),
        }
    }

    fn search(&self, recording: &[u8], start: usize) -> SearchAnswer {
        forms::search_answer(recording::search(recording, start).map_err(Refusal::number))
    }

    fn list(&self, recording: &[u8], text: &mut [u8]) -> usize {
        let listing = listing::listing(recording);
        text[..listing.len()].copy_from_slice(listing.as_bytes());
        listing.len()
    }
}

fn sender_in(state: &Sender) -> SenderState {
    SenderState {
        chosen: state.chosen,
        in_force: state.mode.audio,
        data: state.mode.lsd,
        block: state.block,
        item_due: state.due != 0,
        remainder: state.remainder,
    }
}

fn sender_out(state: &SenderState) -> Sender {
    Sender {
        chosen: state.chosen,
        mode: Mode { audio: state.in_force, lsd: state.data },
        block: state.block,
        due: state.item_due.into(),
        remainder: state.remainder,
    }
}

fn mode_in(mode: Mode) -> codes::Mode {
    codes::Mode { audio: mode.audio, data: mode.lsd }
}

fn mode_out(mode: codes::Mode) -> Mode {
    Mode { audio: mode.audio, lsd: mode.data }
}

fn reader_in(state: &Reader) -> ReaderState {
    ReaderState {
        mode: mode_in(state.mode),
        kept: mode_in(state.kept),
        wrong_words: state.wrong,
        block: (state.block != 0).then_some(state.block),
        wrong_patterns: state.misses,
        first_bits: std::array::from_fn(|index| state.firsts >> (5 - index) & 1 == 1),
        due: match state.slot.kind {
            0 => Due::Nothing,
            1 => Due::Item,
            2 => Due::Count,
            _ => Due::Message(state.slot.words.into()),
        },
        before: state.before != 0,
        remainder: state.remainder,
    }
}

fn reader_out(state: &ReaderState) -> Reader {
    Reader {
        mode: mode_out(state.mode),
        kept: mode_out(state.kept),
        wrong: state.wrong_words,
        block: state.block.unwrap_or(0),
        firsts: state.first_bits.iter().fold(0, |sum, &bit| sum << 1 | u8::from(bit)),
        misses: state.wrong_patterns,
        slot: match state.due {
            Due::Nothing => forms::PLAIN_DUE,
            Due::Item => forms::ITEM_DUE,
            Due::Count => forms::LENGTH_DUE,
            Due::Message(words) => {
                forms::words_due(words.try_into().expect("no state in range has over 255 words due"))
            }
        },
        before: state.before.into(),
        remainder: state.remainder,
    }
}

fn block_answer(answer: &reader::BlockAnswer) -> BlockAnswer {
    let reading = match answer.word {
        Reading::Mended(_) => 0,
        Reading::Item(_) => 1,
        Reading::MessageWord(_) => 2,
        Reading::ForbiddenItem(_) => 3,
        Reading::NotFollowed(_) => 4,
        Reading::Unreadable => 5,
        Reading::NotRead => 6,
    };
    BlockAnswer {
        standing: match answer.standing {
            Standing::Waiting => 0,
            Standing::Read => 1,
            Standing::Lost => 2,
        },
        verdict: match answer.verdict {
            Verdict::None => 0,
            Verdict::Good => 1,
            Verdict::Bad => 2,
        },
        reading,
        code: answer.word.code().unwrap_or(0),
    }
}

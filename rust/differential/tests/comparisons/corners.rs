//! The corner cases as they are stored: the library leaves what the files say.

use std::path::Path;

use delampuk::LISTING_MAX;
use differential::calls::{Block, List, Octets, Read, ReadPreset, Search, Send, WalkStep, WritePreset};
use differential::states;
use model::codes::Mode;
use model::corners::case::{Case, ReaderCase, SenderCase, WalkCase};
use model::corners::{outcome, stored};
use model::forge::{self, Line};
use model::reader::{BlockAnswer, Standing, Verdict};
use model::recording::Step;
use model::sender::{Answer, SenderState};
use model::service::Flags;
use model::slots::Reading;
use model::text::difference;

use super::{run, Trial};

/// So many cases are the model's alone: 25 codes that go neither as a word nor as an item, each with its check octet
/// and as sent; remainders over 15, 7; presets that are not of two octets, 3; readers' states that C cannot hold, 3.
const MODELS_ALONE: usize = 2 * 25 + 7 + 3 + 3;

#[test]
fn stored_corner_cases() {
    let folder = Path::new(env!("CARGO_MANIFEST_DIR")).join("../../tests/corners");
    run("stored_corner_cases", u64::MAX, |trial| {
        let mut left_out = 0;
        for stored in stored::read(&folder) {
            let Some(left) = left(trial, stored.case) else {
                left_out += 1;
                continue;
            };
            if let Some(difference) = difference(&stored.outcome, &left) {
                panic!("the library leaves another outcome than is stored\ncase {}: {difference}", stored.name);
            }
        }
        assert_eq!(left_out, MODELS_ALONE, "cases that the library was not asked");
    });
}

/// The lines of what the library leaves; none where it cannot be asked.
fn left(trial: &mut Trial, case: Case) -> Option<Vec<String>> {
    match case {
        Case::Sender(case) => Some(sent(trial, case)),
        Case::Reader(case) => read(trial, case),
        Case::Walk(case) => stepped(trial, case),
        Case::Search(recording, start) => {
            let left = trial.call(&Search { recording: Octets(recording), start });
            Some(unless_refused(left.number, || outcome::found(left.place)))
        }
        Case::Listing(recording) => Some(listed(trial, recording)),
        Case::PresetRead(preset) => preset_read(trial, &preset),
        Case::PresetWrite(state) => {
            let (bits, number) = trial.call(&WritePreset { state: states::sender_octets(&state) });
            Some(unless_refused(number, || outcome::preset_written(bits)))
        }
        Case::Check(code) => word_sent(trial, code).map(|[_, odd]| outcome::check_octet(in_natural_order(odd))),
        Case::Sent(code) => word_sent(trial, code).map(outcome::word_sent),
        Case::ReadWord(word) => Some(outcome::word_read(word_read(trial, word))),
        Case::Crc(block) => Some(outcome::remainder(remainder(trial, block))),
        Case::Service(flags, remainder) => rows(trial, flags, remainder).map(|rows| outcome::rows(&rows)),
    }
}

fn unless_refused(number: u8, lines: impl FnOnce() -> Vec<String>) -> Vec<String> {
    match number {
        0 => lines(),
        _ => outcome::refused(number),
    }
}

fn sent(trial: &mut Trial, case: SenderCase) -> Vec<String> {
    let left = trial.call(&Send {
        state: states::sender_octets(&case.state),
        mute: case.mute.into(),
        code: case.offered,
        flags: [case.flags.a, case.flags.e, case.flags.t].map(u8::from),
        voice: Octets(case.voice),
        lsd: Octets(case.data),
        line: Octets(case.line),
    });
    let answer = if left.kind == 0 { Answer::Sent } else { Answer::Held };
    unless_refused(left.number, || outcome::sent(answer, &states::sender(left.state), &left.line.0))
}

/// Block 0 and over 255 message words are states of the model alone.
fn read(trial: &mut Trial, case: ReaderCase) -> Option<Vec<String>> {
    let state = states::reader_octets(&case.state)?;
    let call = Read { state, line: Octets(case.line), voice: Octets(case.voice), lsd: Octets(case.data) };
    let left = trial.call(&call);
    let streams = [&left.voice.0[..], &left.lsd.0];
    Some(unless_refused(left.number, || outcome::read(block_answer(left.block), &states::reader(left.state), streams)))
}

fn stepped(trial: &mut Trial, case: WalkCase) -> Option<Vec<String>> {
    let left = trial.call(&WalkStep {
        state: states::reader_octets(&case.state)?,
        lost: case.searching.into(),
        place: case.place,
        recording: Octets(case.recording),
        voice: Octets(case.voice),
        lsd: Octets(case.data),
    });
    let step = match left.kind {
        0 => Step::Block(block_answer(left.block)),
        1 => Step::Place(left.value),
        _ => Step::End(left.value),
    };
    let (walk, streams) = ((left.place, left.lost != 0), [&left.voice.0[..], &left.lsd.0]);
    Some(unless_refused(left.number, || outcome::stepped(step, walk, &states::reader(left.state), streams)))
}

fn block_answer([standing, verdict, reading, code]: Block) -> BlockAnswer {
    let word = match reading {
        0 => Reading::Mended(code),
        1 => Reading::Item(code),
        2 => Reading::MessageWord(code),
        3 => Reading::ForbiddenItem(code),
        4 => Reading::NotFollowed(code),
        5 => Reading::Unreadable,
        _ => Reading::NotRead,
    };
    let standing = [Standing::Waiting, Standing::Read, Standing::Lost][usize::from(standing)];
    let verdict = [Verdict::None, Verdict::Good, Verdict::Bad][usize::from(verdict)];
    BlockAnswer { standing, verdict, word }
}

fn listed(trial: &mut Trial, recording: Vec<u8>) -> Vec<String> {
    let left = trial.call(&List { recording: Octets(recording), text: Octets(vec![0xA5; LISTING_MAX]) });
    outcome::listed(std::str::from_utf8(&left.text.0[..left.length]).expect("a listing is text"))
}

fn preset_read(trial: &mut Trial, preset: &[u8]) -> Option<Vec<String>> {
    let bits = u16::from_be_bytes(preset.try_into().ok()?);
    let (state, offer, number) = trial.call(&ReadPreset { state: states::fresh_sender(), bits });
    Some(unless_refused(number, || outcome::preset_read(&states::sender(state), offer)))
}

/// The block that the library sends, if the call is not refused.
fn block(trial: &mut Trial, state: SenderState, code: u8, flags: Flags) -> Option<Vec<u8>> {
    let call = Send {
        state: states::sender_octets(&state),
        code,
        flags: [flags.a, flags.e, flags.t].map(u8::from),
        mute: 0,
        voice: Octets(vec![0; 140]),
        lsd: Octets(vec![0; 156]),
        line: Octets(vec![0; 160]),
    };
    let left = trial.call(&call);
    (left.number == 0).then_some(left.line.0)
}

/// Eight bits of the service channel, from an octet of the block on.
fn service_bits(block: &[u8], from: usize) -> [bool; 8] {
    std::array::from_fn(|index| block[from + index] & 1 == 1)
}

/// A code as it goes: those of attribute 111 as a plain word, all others as an item.
fn word_sent(trial: &mut Trial, code: u8) -> Option<[u8; 2]> {
    let state = SenderState { item_due: code >> 5 != 7, ..SenderState::FRESH };
    let block = block(trial, state, code, Flags::default())?;
    Some([8, 88].map(|from| model::bits::number(&service_bits(&block, from)) as u8))
}

/// The odd frame carries p2 p1 p0 p4 p3 p5 p6 p7.
fn in_natural_order(odd: u8) -> u8 {
    let order = [2, 1, 0, 4, 3, 5, 6, 7];
    order.iter().enumerate().map(|(index, p)| (odd >> (7 - index) & 1) << (7 - p)).sum()
}

fn word_read(trial: &mut Trial, word: [u8; 2]) -> Option<u8> {
    let case = forge::take(forge::reading(1, Mode::OFF), Line::new(1, 0).word(word));
    let state = states::reader_octets(&case.state).expect("a session meets this state");
    let call = Read { state, line: Octets(case.line), voice: Octets(case.voice), lsd: Octets(case.data) };
    block_answer(trial.call(&call).block).word.code()
}

/// The reader keeps the remainder of the block that it has read.
fn remainder(trial: &mut Trial, block: Vec<u8>) -> u8 {
    let state = states::fresh_reader();
    let (voice, lsd) = (Octets(vec![0; 140]), Octets(vec![0; 156]));
    states::reader(trial.call(&Read { state, line: Octets(block), voice, lsd }).state).remainder
}

/// The first eight service bits of the sixteen frames of a multiframe.
fn rows(trial: &mut Trial, flags: Flags, remainder: u8) -> Option<[[bool; 8]; 16]> {
    let mut rows = [[false; 8]; 16];
    for (pair, number) in rows.chunks_exact_mut(2).zip(1..) {
        let state = SenderState { block: number, remainder, ..SenderState::FRESH };
        let block = block(trial, state, 0x80, flags)?;
        pair.copy_from_slice(&[service_bits(&block, 0), service_bits(&block, 80)]);
    }
    Some(rows)
}

//! `model reading`: what a reader answers to a collection of recordings, and to calls that are refused.

use std::io::{self, BufWriter, Read, Write};

use super::{written, Options, Stop};
use model::bits;
use model::frame::{BLOCK_OCTETS, DATA_OCTETS, VOICE_OCTETS};
use model::listing::{standing_name, verdict_name};
use model::reader::{read, BlockAnswer, ReaderState};
use model::slots::{Due, Reading};
use model::text;

/// The refused calls: whether the state is forged, and the lengths of line, voice and data.
const REFUSED: [(bool, [usize; 3]); 6] = [
    (true, [BLOCK_OCTETS, VOICE_OCTETS, DATA_OCTETS]),
    (false, [159, VOICE_OCTETS, DATA_OCTETS]),
    (false, [BLOCK_OCTETS, 139, DATA_OCTETS]),
    (false, [BLOCK_OCTETS, VOICE_OCTETS, 155]),
    // With several things wrong the smallest number answers.
    (true, [159, 139, 155]),
    (false, [159, 139, 155]),
];

/// Runs the command.
pub fn run(options: Options) -> Result<(), Stop> {
    options.none()?;
    let collection = collection()?;
    let mut out = BufWriter::new(io::stdout().lock());
    let mut rest = &collection[..];
    for number in 1.. {
        let Some(recording) = next_recording(&mut rest, number)? else { break };
        written(print_recording(&mut out, number, recording))?;
    }
    Ok(written(print_refused(&mut out).and_then(|()| out.flush()))?)
}

fn collection() -> Result<Vec<u8>, String> {
    let mut octets = Vec::new();
    io::stdin().read_to_end(&mut octets).map_err(|error| format!("cannot read standard input: {error}"))?;
    Ok(octets)
}

/// Takes the blocks of one recording off the rest of a collection, or nothing at its end.
fn next_recording<'a>(rest: &mut &'a [u8], number: usize) -> Result<Option<&'a [u8]>, Stop> {
    let Some((&blocks, after)) = rest.split_first() else { return Ok(None) };
    if blocks == 0 {
        return Err(Stop::Input(format!("recording {number} has no blocks")));
    }
    let Some((recording, after)) = after.split_at_checked(usize::from(blocks) * BLOCK_OCTETS) else {
        return Err(Stop::Input(format!("the collection ends within recording {number}")));
    };
    *rest = after;
    Ok(Some(recording))
}

/// Hands every block to one reader, also after a loss: nothing is searched for.
fn print_recording(out: &mut impl Write, number: usize, recording: &[u8]) -> io::Result<()> {
    writeln!(out, "recording {number}: {} blocks", recording.len() / BLOCK_OCTETS)?;
    let mut state = ReaderState::FRESH;
    let (mut voice, mut data) = ([0; VOICE_OCTETS], [0; DATA_OCTETS]);
    for (block, number) in recording.chunks(BLOCK_OCTETS).zip(1..) {
        let answer = read(&mut state, block, &mut voice, &mut data).expect("no row can refuse this call");
        writeln!(out, "{number} {}", told(answer))?;
        writeln!(out, "  voice {}", digits(&voice))?;
        writeln!(out, "  data {}", digits(&data))?;
        writeln!(out, "  {}", left(&state))?;
    }
    Ok(())
}

fn told(answer: BlockAnswer) -> String {
    let standing = standing_name(answer.standing);
    let verdict = verdict_name(answer.verdict);
    format!("{standing} {verdict} {}", word(answer.word))
}

fn word(reading: Reading) -> String {
    match reading {
        Reading::Mended(code) => format!("mended {code:02X}"),
        Reading::Item(code) => format!("item {code:02X}"),
        Reading::MessageWord(code) => format!("message {code:02X}"),
        Reading::ForbiddenItem(code) => format!("forbidden {code:02X}"),
        Reading::NotFollowed(code) => format!("not followed {code:02X}"),
        Reading::Unreadable => "unreadable".to_string(),
        Reading::NotRead => "not read".to_string(),
    }
}

/// The octets up to the last one that is not zero.
fn digits(octets: &[u8]) -> String {
    match octets.iter().rposition(|&octet| octet != 0) {
        Some(last) => text::hex(&octets[..=last]),
        None => "-".to_string(),
    }
}

fn left(state: &ReaderState) -> String {
    let ReaderState { mode, kept, wrong_words, block, wrong_patterns, first_bits, due, before, remainder } = *state;
    let block = block.unwrap_or(0);
    let firsts = bits::number(&first_bits);
    let (kind, words) = numbers(due);
    let before = u8::from(before);
    format!(
        "mode {} {} kept {} {} wrong {wrong_words} block {block} firsts {firsts} misses {wrong_patterns} \
         due {kind} {words} before {before} remainder {remainder}",
        mode.audio, mode.data, kept.audio, kept.data
    )
}

fn numbers(due: Due) -> (u8, u16) {
    match due {
        Due::Nothing => (0, 0),
        Due::Item => (1, 0),
        Due::Count => (2, 0),
        Due::Message(words) => (3, words),
    }
}

fn print_refused(out: &mut impl Write) -> io::Result<()> {
    for (forged, lengths) in REFUSED {
        // No session reaches a block numbered 9.
        let given = ReaderState { block: forged.then_some(9), ..ReaderState::FRESH };
        let [line, voice, data] = lengths.map(|length| vec![0xAA; length]);
        let (mut state, mut voice_after, mut data_after) = (given, voice.clone(), data.clone());
        let refusal = read(&mut state, &line, &mut voice_after, &mut data_after).expect_err("a refusal");
        let untouched = (state, voice_after, data_after) == (given, voice, data);
        let touch = if untouched { "untouched" } else { "touched" };
        writeln!(out, "refused {} {touch}", refusal.number())?;
    }
    Ok(())
}

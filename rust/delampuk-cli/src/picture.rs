//! `delampuk picture`: a recording, or the calls of a session, as a drawing.

mod columns;
mod draw;
mod look;
mod marks;
mod seen;
mod svg;

use std::ffi::OsString;
use std::io::{self, Write};

use delampuk::{Call, Reader, Sender, LINE, VOICE};

use crate::arguments::{no_option, too_many, Argument, Arguments};
use crate::input::Input;
use crate::stop::{Outcome, Stop};
use crate::supply::Supply;
use crate::walk::{Step, Walk};
use crate::words::{self, Repeated};
use crate::Command;
use draw::{Picture, Track};
use look::Row;
use seen::{Refused, Seen};

/// The subcommand.
pub const COMMAND: Command =
    Command { name: "picture", about: "draws a recording or a session of calls, as SVG", help: HELP, run };

const HELP: &str = "\
usage: delampuk picture [FILE] > PICTURE.svg
       delampuk picture [--voice FILE] --calls CALL... > PICTURE.svg

Draws a recording of the line, FILE or standard input, of any length: blocks from left to right, and rows for the
microphone, the BAS word, audio and data in force, the CRC's verdict and the reader's state. Blocks are numbered from
0, as 'delampuk list' numbers them. A mark tells each block from which on another mode is in force. Where there are
more than 250 blocks, a column stands for several and shows what matters most of them.

  --calls       draws a session instead: each CALL is made as in 'delampuk send', from a fresh state on. What the
                sender did is above, with mute, and what a reader makes of the same blocks below.
  --voice FILE  takes the voice of these calls from FILE; without it, and where it ends, voice is zero.

The picture is one SVG on standard output. Where no alignment is found, or no call gives a block, there is none, and
the exit status is 1. It is 1 too where a call is refused; the others are drawn.
";

/// The rows that a sender has.
const SENDER: &[Row] = &[Row::Mute, Row::Microphone, Row::Offered, Row::Word, Row::Audio, Row::Data];

/// The rows that a reader has.
const READER: &[Row] = &[Row::Microphone, Row::Word, Row::Audio, Row::Data, Row::Crc, Row::State];

/// The most calls that a session has, so that it has room in memory; they are two days of a line.
const CALLS_MOST: u64 = 10_000_000;

/// The letters of the calls that are told below the title.
const CALLS_SHOWN: usize = 160;

/// The letters of a file's name that have room in the title.
const NAME_SHOWN: usize = 32;

/// What the arguments ask for.
#[derive(Default)]
struct Plan {
    calls: bool,
    voice: Option<OsString>,
    words: Vec<OsString>,
}

fn run(arguments: Arguments) -> Outcome {
    let mut plan = plan(arguments)?;
    if plan.calls {
        return session(&plan);
    }
    if let Some(word) = plan.words.get(1) {
        return Err(too_many(word));
    }
    if plan.voice.is_some() {
        return Err(Stop::Usage("--voice goes with --calls".to_string()));
    }
    written(&draw::draw(&recording(Input::open(plan.words.pop())?)?))
}

fn plan(mut arguments: Arguments) -> Result<Plan, Stop> {
    let mut plan = Plan::default();
    while let Some(argument) = arguments.next()? {
        match argument {
            Argument::Option(option) if option == "--calls" => plan.calls = true,
            Argument::Option(option) if option == "--voice" => plan.voice = Some(arguments.value(&option)?),
            Argument::Option(option) => return Err(no_option(&option)),
            Argument::Word(word) => plan.words.push(word),
        }
    }
    Ok(plan)
}

fn written(text: &str) -> Outcome {
    let mut out = io::stdout().lock();
    out.write_all(text.as_bytes()).and_then(|()| out.flush()).map_err(Stop::unwritten)
}

/// The picture of a recording.
fn recording(input: Input) -> Result<Picture, Stop> {
    let name = short(&input.name);
    let mut walk = Walk::new(input);
    let walked = walked(&mut walk);
    walk.progress.end();
    let Walked { first, blocks, left } = walked?;
    let (count, left) = (counted(blocks.len() as u64, "block"), counted(left, "octet"));
    let title = format!("{name}: {count} from octet {first} on, {left} left");
    let notes = notes(blocks.len());
    Ok(Picture { title, notes, tracks: vec![Track { name: "Reader", rows: READER, blocks }], refused: Vec::new() })
}

/// A recording from end to end.
struct Walked {
    /// Where its first block begins.
    first: u64,
    blocks: Vec<Seen>,
    /// The octets after the last block.
    left: u64,
}

fn walked(walk: &mut Walk) -> Result<Walked, Stop> {
    let mut blocks: Vec<Seen> = Vec::new();
    let (mut first, mut found) = (0, None);
    loop {
        match walk.step()? {
            Step::None(refusal) => return Err(refusal.into()),
            Step::End(left) => return Ok(Walked { first, blocks, left }),
            Step::Found(place) if blocks.is_empty() => first = place,
            Step::Found(place) => found = Some(place),
            Step::Block(taken) => {
                let seen = seen::heard(&taken.block, taken.mode, &taken.voice);
                blocks.push(Seen { found: found.take(), ..seen });
                walk.progress.tick(walk.place());
            }
        }
    }
}

/// A file's name without its folders, as far as there is room.
fn short(name: &str) -> String {
    let last = name.rsplit('/').next().unwrap_or(name);
    match last.char_indices().nth(NAME_SHOWN) {
        Some((end, _)) => format!("{}...", &last[..end]),
        None => last.to_string(),
    }
}

/// Draws a session of calls.
fn session(plan: &Plan) -> Outcome {
    let calls = plan.words.iter().map(|word| call(&word.to_string_lossy())).collect::<Result<Vec<Repeated>, Stop>>()?;
    if calls.is_empty() {
        return Err(Stop::Usage("no call is given".to_string()));
    }
    let count = calls.iter().fold(0, |sum: u64, call| sum.saturating_add(call.times));
    if count > CALLS_MOST {
        return Err(Stop::Usage(format!("there are more than {CALLS_MOST} calls")));
    }
    let voice = match &plan.voice {
        Some(file) => Some(Supply::new(Input::open(Some(file.clone()))?)),
        None => None,
    };
    let mut session = Session::new(voice);
    for word in &calls {
        for _ in 0..word.times {
            session.make(&word.call)?;
        }
    }
    let faults = session.faults();
    if !session.sent.is_empty() {
        written(&draw::draw(&session.picture(count, &shown(&plan.words))))?;
    }
    faults
}

fn call(word: &str) -> Result<Repeated, Stop> {
    words::read(word).ok_or_else(|| Stop::Usage(format!("\"{word}\" is no call: a call is HH[:FLAGS][*N]")))
}

/// The calls as they were given, as far as there is room.
fn shown(words: &[OsString]) -> String {
    let words: Vec<_> = words.iter().map(|word| word.to_string_lossy()).collect();
    let text = words.join(" ");
    // a call has no letters but those of ASCII
    if text.len() <= CALLS_SHOWN {
        text
    } else {
        format!("{}...", &text[..CALLS_SHOWN])
    }
}

/// A session, and a reader that hears it from its first block on.
struct Session {
    sender: Sender,
    reader: Reader,
    voice: Option<Supply>,
    sent: Vec<Seen>,
    read: Vec<Seen>,
    refused: Vec<Refused>,
}

impl Session {
    fn new(voice: Option<Supply>) -> Session {
        let (sender, reader) = (Sender::new(), Reader::new());
        Session { sender, reader, voice, sent: Vec::new(), read: Vec::new(), refused: Vec::new() }
    }

    /// Makes a call. One that is refused takes no voice.
    fn make(&mut self, call: &Call) -> Outcome {
        let (mut voice, mut line) = ([0; VOICE], [0; LINE]);
        if let Err(refusal) = seen::send(&mut self.sender.clone(), call, &voice, &mut line) {
            self.refused.push(Refused { before: self.sent.len(), code: call.code, refusal });
            return Ok(());
        }
        if let (Some(supply), false) = (&mut self.voice, call.mute) {
            supply.take(&mut voice[..self.sender.mode().counts().voice_octets])?;
        }
        self.sent.push(seen::send(&mut self.sender, call, &voice, &mut line)?);
        self.read.push(seen::read(&mut self.reader, &line)?);
        Ok(())
    }

    /// The first refusal, and how many there were.
    fn faults(&self) -> Outcome {
        match self.refused.first() {
            None => Ok(()),
            Some(Refused { code, refusal, before }) => {
                let count = counted(self.refused.len() as u64, "call");
                Err(Stop::Fault(format!("{count} refused, first {code:02X} before block {before}: {refusal}")))
            }
        }
    }

    fn picture(self, count: u64, words: &str) -> Picture {
        let blocks = self.sent.len();
        let title = format!("A session of {}, {}", counted(count, "call"), counted(blocks as u64, "block"));
        let mut lines = vec![format!("Calls: {words}")];
        lines.extend(notes(blocks));
        let sender = Track { name: "Sender", rows: SENDER, blocks: self.sent };
        let reader = Track { name: "Reader of the same blocks", rows: READER, blocks: self.read };
        Picture { title, notes: lines, tracks: vec![sender, reader], refused: self.refused }
    }
}

/// What has to be known before a picture of so many blocks is read.
fn notes(blocks: usize) -> Vec<String> {
    let each = columns::blocks_a_column(blocks);
    let blocks = "Each block is 20 ms of the line; they are numbered from 0.";
    match each {
        1 => vec![blocks.to_string()],
        _ => vec![format!(
            "{blocks} A column stands for {} blocks and shows what matters most of them.",
            parted(each as u64)
        )],
    }
}

fn counted(count: u64, what: &str) -> String {
    if count == 1 {
        format!("1 {what}")
    } else {
        format!("{} {what}s", parted(count))
    }
}

/// A number with a comma before each three digits.
fn parted(number: u64) -> String {
    let digits = number.to_string();
    let mut text = String::new();
    for (i, digit) in digits.chars().enumerate() {
        if i > 0 && (digits.len() - i) % 3 == 0 {
            text.push(',');
        }
        text.push(digit);
    }
    text
}

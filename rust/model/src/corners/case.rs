//! One corner case: the inputs of a call, and what the model makes of them.

use super::outcome;
use crate::fault::Fault;
use crate::frame::{Block, DATA_OCTETS, VOICE_OCTETS};
use crate::reader::{self, ReaderState};
use crate::recording::{self, Walk};
use crate::refusal::Refusal;
use crate::sender::{self, Answer, Call, SenderState};
use crate::service::{self, Flags};
use crate::{bas, crc, listing, preset, text};

/// The subjects of cases.
#[derive(Clone, Copy, Debug, PartialEq, Eq)]
pub enum Kind {
    /// The sender's step.
    Sender,
    /// The reader's step.
    Reader,
    /// A search.
    Search,
    /// A walk's step.
    Walk,
    /// A listing.
    Listing,
    /// Reading or writing a preset.
    Preset,
    /// Check octets, words as sent, and reading words.
    Bas,
    /// The remainder of a block.
    Crc,
    /// The sixteen rows of service bits.
    Service,
}

impl Kind {
    /// All kinds.
    pub const ALL: [Kind; 9] = [
        Kind::Sender,
        Kind::Reader,
        Kind::Search,
        Kind::Walk,
        Kind::Listing,
        Kind::Preset,
        Kind::Bas,
        Kind::Crc,
        Kind::Service,
    ];

    /// The name of its file.
    pub fn name(self) -> &'static str {
        match self {
            Kind::Sender => "sender",
            Kind::Reader => "reader",
            Kind::Search => "search",
            Kind::Walk => "walk",
            Kind::Listing => "listing",
            Kind::Preset => "preset",
            Kind::Bas => "bas",
            Kind::Crc => "crc",
            Kind::Service => "service",
        }
    }
}

/// The inputs of a sender's step.
#[derive(Clone, Debug)]
pub struct SenderCase {
    /// The lent state.
    pub state: SenderState,
    /// Mute.
    pub mute: bool,
    /// The offered code.
    pub offered: u8,
    /// A, E and T.
    pub flags: Flags,
    /// The voice buffer.
    pub voice: Vec<u8>,
    /// The data buffer.
    pub data: Vec<u8>,
    /// The line block as it is lent.
    pub line: Vec<u8>,
}

/// The inputs of a reader's step.
#[derive(Clone, Debug)]
pub struct ReaderCase {
    /// The lent state.
    pub state: ReaderState,
    /// The line block.
    pub line: Vec<u8>,
    /// The voice buffer as it is lent.
    pub voice: Vec<u8>,
    /// The data buffer as it is lent.
    pub data: Vec<u8>,
}

/// The inputs of a walk's step.
#[derive(Clone, Debug)]
pub struct WalkCase {
    /// The recording.
    pub recording: Vec<u8>,
    /// The walk's place in it.
    pub place: usize,
    /// Whether the block before was lost.
    pub searching: bool,
    /// The lent reader's state.
    pub state: ReaderState,
    /// The voice buffer as it is lent.
    pub voice: Vec<u8>,
    /// The data buffer as it is lent.
    pub data: Vec<u8>,
}

/// The inputs of any call.
#[derive(Clone, Debug)]
pub enum Case {
    /// A sender's step.
    Sender(SenderCase),
    /// A reader's step.
    Reader(ReaderCase),
    /// A search in a recording from an octet on.
    Search(Vec<u8>, usize),
    /// A walk's step.
    Walk(WalkCase),
    /// The listing of a recording.
    Listing(Vec<u8>),
    /// Reading a preset from a buffer.
    PresetRead(Vec<u8>),
    /// Writing a preset from a state.
    PresetWrite(SenderState),
    /// The check octet of a code.
    Check(u8),
    /// The word of a code in the order of the line.
    Sent(u8),
    /// Reading a word in the order of the line.
    ReadWord([u8; 2]),
    /// The remainder of a block.
    Crc(Vec<u8>),
    /// The service rows of flags and a remainder.
    Service(Flags, u8),
}

impl Case {
    /// The subject of the case.
    pub fn kind(&self) -> Kind {
        match self {
            Case::Sender(_) => Kind::Sender,
            Case::Reader(_) => Kind::Reader,
            Case::Search(..) => Kind::Search,
            Case::Walk(_) => Kind::Walk,
            Case::Listing(_) => Kind::Listing,
            Case::PresetRead(_) | Case::PresetWrite(_) => Kind::Preset,
            Case::Check(_) | Case::Sent(_) | Case::ReadWord(_) => Kind::Bas,
            Case::Crc(_) => Kind::Crc,
            Case::Service(..) => Kind::Service,
        }
    }

    /// The lines that name the call and its inputs, each a key and a value; a call has always the same keys.
    pub fn inputs(&self) -> Vec<String> {
        match self {
            Case::Sender(case) => case.inputs(),
            Case::Reader(case) => case.inputs(),
            Case::Walk(case) => case.inputs(),
            Case::Search(recording, start) => {
                vec!["call search".to_string(), format!("start {start}"), octets("recording", recording)]
            }
            Case::Listing(recording) => vec!["call list".to_string(), octets("recording", recording)],
            Case::PresetRead(preset) => vec!["call read preset".to_string(), octets("preset", preset)],
            Case::PresetWrite(state) => vec!["call write preset".to_string(), outcome::sender_state(state)],
            Case::Check(code) => vec!["call check octet".to_string(), format!("code {code:02X}")],
            Case::Sent(code) => vec!["call word sent".to_string(), format!("code {code:02X}")],
            Case::ReadWord(word) => vec!["call word read".to_string(), octets("word", word)],
            Case::Crc(block) => vec!["call remainder".to_string(), octets("block", block)],
            Case::Service(flags, remainder) => {
                vec!["call service rows".to_string(), flags_line(*flags), format!("remainder {remainder}")]
            }
        }
    }

    /// The lines of the outcome.
    pub fn outcome(&self, fault: Fault) -> Vec<String> {
        let outcome = match self {
            Case::Sender(case) => case.outcome(fault),
            Case::Reader(case) => case.outcome(fault),
            Case::Walk(case) => case.outcome(fault),
            Case::Search(recording, start) => recording::search(recording, *start).map(outcome::found),
            Case::PresetRead(preset) => {
                preset::read_octets(preset).map(|(state, offer)| outcome::preset_read(&state, offer))
            }
            Case::PresetWrite(state) => preset::write(state).map(outcome::preset_written),
            _ => Ok(self.leaf_outcome(fault)),
        };
        outcome.unwrap_or_else(|refusal| outcome::refused(refusal.number()))
    }

    /// The outcome of calls that are never refused.
    fn leaf_outcome(&self, fault: Fault) -> Vec<String> {
        match self {
            Case::Listing(recording) => outcome::listed(&listing::listing_with(fault, recording)),
            Case::Check(code) => outcome::check_octet(bas::check_octet(*code)),
            Case::Sent(code) => outcome::word_sent(bas::sent(*code)),
            Case::ReadWord(word) => outcome::word_read(bas::read_with(fault, *word)),
            Case::Crc(block) => outcome::remainder(crc::crc4_with(fault, &Block::from_octets(block))),
            Case::Service(flags, remainder) => outcome::rows(&service::rows(*flags, *remainder)),
            _ => Vec::new(),
        }
    }
}

impl SenderCase {
    fn inputs(&self) -> Vec<String> {
        vec![
            "call send".to_string(),
            outcome::sender_state(&self.state),
            format!("mute {}", u8::from(self.mute)),
            format!("offered {:02X}", self.offered),
            flags_line(self.flags),
            octets("voice", &self.voice),
            octets("data", &self.data),
            octets("line", &self.line),
        ]
    }

    fn outcome(&self, fault: Fault) -> Result<Vec<String>, Refusal> {
        let (state, line, answer) = self.run(fault)?;
        Ok(outcome::sent(answer, &state, &line))
    }

    /// The state and line block after the call, and its answer.
    pub fn run(&self, fault: Fault) -> Result<(SenderState, Vec<u8>, Answer), Refusal> {
        let (mut state, mut line) = (self.state, self.line.clone());
        let call =
            Call { mute: self.mute, offered: self.offered, flags: self.flags, voice: &self.voice, data: &self.data };
        let answer = sender::send_with(fault, &mut state, &call, &mut line)?;
        Ok((state, line, answer))
    }
}

impl ReaderCase {
    fn inputs(&self) -> Vec<String> {
        vec![
            "call read".to_string(),
            outcome::reader_state(&self.state),
            octets("line", &self.line),
            octets("voice", &self.voice),
            octets("data", &self.data),
        ]
    }

    fn outcome(&self, fault: Fault) -> Result<Vec<String>, Refusal> {
        let mut lent = self.clone();
        let answer = reader::read_with(fault, &mut lent.state, &self.line, &mut lent.voice, &mut lent.data)?;
        Ok(outcome::read(answer, &lent.state, [&lent.voice, &lent.data]))
    }

    /// The state after the call, or the same state where it is refused.
    pub fn state_after(&self) -> ReaderState {
        let mut state = self.state;
        let (mut voice, mut data) = ([0; VOICE_OCTETS], [0; DATA_OCTETS]);
        let _ = reader::read(&mut state, &self.line, &mut voice, &mut data);
        state
    }
}

impl WalkCase {
    fn inputs(&self) -> Vec<String> {
        vec![
            "call step".to_string(),
            format!("place {}", self.place),
            format!("searching {}", u8::from(self.searching)),
            octets("recording", &self.recording),
            outcome::reader_state(&self.state),
            octets("voice", &self.voice),
            octets("data", &self.data),
        ]
    }

    fn outcome(&self, fault: Fault) -> Result<Vec<String>, Refusal> {
        let mut walk = Walk { recording: &self.recording, place: self.place, searching: self.searching };
        let mut lent = self.clone();
        let step = walk.step_with(fault, &mut lent.state, &mut lent.voice, &mut lent.data)?;
        Ok(outcome::stepped(step, (walk.place, walk.searching), &lent.state, [&lent.voice, &lent.data]))
    }
}

fn octets(key: &str, octets: &[u8]) -> String {
    format!("{key} {}", text::octets(octets))
}

fn flags_line(flags: Flags) -> String {
    format!("flags {}", text::flags(flags))
}

//! What is timed: the same inputs for every contestant.
//!
//! A case has several inputs, called in turn, each from a given state, so that no call depends on how often another
//! was made. They are as many as a cache holds well, for a processor learns the branches of a few by heart.

use model::forge::first_bits_before;
use model::random::Random;
use model::{bas, bits};

use crate::contestants::{self, Contestant};
use crate::forms::{self, Mode, Offer, Reader, Sender, LINE, LSD, RECORDING_MAX, VOICE};
use crate::recordings;

/// The blocks of a sending or reading case: some multiframes.
const BLOCKS: u8 = 32;

/// The offered code: a plain word that changes nothing.
pub const CODE: u8 = 0x80;

/// A sending call.
pub struct SendInput {
    /// The state that it finds.
    pub state: Sender,
    /// Whether the microphone is off.
    pub mute: bool,
    /// The voice buffer.
    pub voice: Vec<u8>,
    /// The data buffer.
    pub lsd: Vec<u8>,
}

impl SendInput {
    /// The inputs besides the state.
    pub fn offer(&self) -> Offer<'_> {
        Offer { mute: self.mute, code: CODE, flags: [false; 3], voice: &self.voice, lsd: &self.lsd }
    }
}

/// A reading call.
pub struct ReadInput {
    /// The state that it finds.
    pub state: Reader,
    /// The line block.
    pub line: Vec<u8>,
}

/// The calls of a case.
pub enum Work {
    /// Sending calls.
    Send(Vec<SendInput>),
    /// Reading calls.
    Read(Vec<ReadInput>),
    /// Searches of recordings of the same length, each from its first octet on.
    Search(Vec<Vec<u8>>),
    /// The listing of a recording.
    List(Vec<u8>),
}

/// One line of a table.
pub struct Case {
    /// What the line is about.
    pub label: String,
    /// Its calls.
    pub work: Work,
}

/// One table.
pub struct Part {
    /// What a call of it does.
    pub title: &'static str,
    /// Its lines.
    pub cases: Vec<Case>,
}

/// Everything that is timed.
pub fn parts() -> Vec<Part> {
    vec![
        Part { title: "send: one block", cases: send_cases() },
        Part { title: "read: one block", cases: read_cases() },
        Part { title: "search: 65,536 octets without a place", cases: search_cases() },
        Part { title: "search: cost against length, random octets", cases: search_lengths() },
        Part { title: "list: 409 blocks", cases: list_cases() },
        Part { title: "list: cost against length, voice and data", cases: list_lengths() },
    ]
}

/// A mode with its name: voice of w bits, the bits that the data value holds.
pub struct Named {
    /// Its name.
    pub name: &'static str,
    /// The mode.
    pub mode: Mode,
}

/// Every width without data, then data values with the widest audio beside them.
pub const MODES: [Named; 15] = [
    named("audio off", 31, 0),
    named("w=1", 11, 0),
    named("w=2", 29, 0),
    named("w=3", 28, 0),
    named("w=4", 27, 0),
    named("w=6", 20, 0),
    named("w=7", 18, 0),
    named("w=7, data [1] SC 38-40", 18, 1),
    named("w=7, data [2] SC 29-40", 18, 2),
    named("w=7, data [4] SC 17-80", 18, 4),
    named("w=6, data [5] bit 7", 20, 5),
    named("w=6, data [7] bit 7, SC 17-80", 20, 7),
    named("w=4, data [9] bits 5-7", 27, 9),
    named("data [13] bits 1-7", 31, 13),
    named("data [14] bits 1-7, SC 17-80", 31, 14),
];

/// The label of the reading case with one wrong bit of each word.
pub const ONE_WRONG: &str = "word with one wrong bit";

/// The same with two.
pub const TWO_WRONG: &str = "word with two wrong bits";

/// The same with so many that no code is near.
pub const UNREADABLE: &str = "unreadable word";

/// The mode of the cases that are about something else.
const USUAL: Mode = Mode { audio: 20, lsd: 5 };

const fn named(name: &'static str, audio: u8, lsd: u8) -> Named {
    Named { name, mode: Mode { audio, lsd } }
}

fn sends(mode: Mode, mute: bool) -> Vec<SendInput> {
    let mut random = Random::new(mode.audio.into());
    let mut send = |count| SendInput {
        state: Sender { chosen: mode.audio, mode, block: count % 8 + 1, due: 0, remainder: random.octet() % 16 },
        mute,
        voice: random.octets(VOICE),
        lsd: random.octets(LSD),
    };
    (0..BLOCKS).map(&mut send).collect()
}

fn send_cases() -> Vec<Case> {
    let case = |name: &str, mode, mute| Case { label: name.to_string(), work: Work::Send(sends(mode, mute)) };
    let open = MODES.iter().map(|named| case(named.name, named.mode, false));
    let muted = [case("muted, w=7", Mode { audio: 18, lsd: 0 }, true), case("muted, w=6, data [5] bit 7", USUAL, true)];
    open.chain(muted).collect()
}

/// The blocks of sending calls, as the model frames them, each with a reader in step.
fn reads(mode: Mode) -> Vec<ReadInput> {
    let framer = contestants::yardstick();
    let read = |input: SendInput| {
        let mut line = vec![0; LINE];
        let mut state = input.state;
        framer.send(&mut state, &input.offer(), &mut line);
        ReadInput { state: in_step(&input.state), line }
    };
    sends(mode, false).into_iter().map(read).collect()
}

fn in_step(sender: &Sender) -> Reader {
    Reader {
        block: sender.block,
        firsts: bits::number(&first_bits_before(sender.block)) as u8,
        before: 1,
        remainder: sender.remainder,
        ..forms::fresh_with(sender.mode)
    }
}

fn read_cases() -> Vec<Case> {
    let case = |name: &str, inputs| Case { label: name.to_string(), work: Work::Read(inputs) };
    let usual_with = |change: fn(&mut ReadInput)| {
        let mut inputs = reads(USUAL);
        inputs.iter_mut().for_each(change);
        inputs
    };
    let in_step = MODES.iter().map(|named| case(named.name, reads(named.mode)));
    let others = [
        case("waiting", usual_with(|input| input.state = Reader { block: 0, ..input.state })),
        case(ONE_WRONG, harmed(|pattern| pattern.count_ones() == 1)),
        case(TWO_WRONG, harmed(|pattern| pattern.count_ones() == 2)),
        case(UNREADABLE, harmed(|pattern| bas::read(pattern.to_be_bytes()).is_none())),
        case("damaged: word, C and alignment", usual_with(damage)),
        case("lost", usual_with(lose)),
    ];
    in_step.chain(others).collect()
}

/// Blocks whose word came with wrong bits, in each by one of the patterns that are asked for: sixteen bits, in the order
/// of the line. The sum of two words is a word, so a pattern can be read by itself exactly where a word with it can.
fn harmed(asked: impl Fn(&u16) -> bool) -> Vec<ReadInput> {
    let patterns: Vec<u16> = (0..=u16::MAX).filter(asked).collect();
    let mut random = Random::new(patterns.len() as u64);
    let mut inputs = reads(USUAL);
    for input in &mut inputs {
        let pattern = random.pick(&patterns);
        for (place, octet) in (8..16).chain(88..96).enumerate() {
            input.line[octet] ^= (pattern >> (15 - place) & 1) as u8;
        }
    }
    inputs
}

/// One wrong alignment bit, two wrong bits of the word, one wrong C bit, and a message that is under way.
fn damage(input: &mut ReadInput) {
    for octet in [3, 10, 93, 86] {
        input.line[octet] ^= 1;
    }
    input.state.slot = forms::words_due(9);
}

/// The third wrong alignment word.
fn lose(input: &mut ReadInput) {
    input.line[3] ^= 1;
    input.state.wrong = 2;
}

fn search_cases() -> Vec<Case> {
    let case = |name: &str, recording| Case { label: name.to_string(), work: Work::Search(vec![recording]) };
    vec![
        case("zeros", recordings::zeros(RECORDING_MAX)),
        case("random octets", recordings::without_place(RECORDING_MAX)),
        case("the first word every 7 octets", recordings::near_misses(RECORDING_MAX)),
    ]
}

/// The same octets for every length, cut into pieces.
fn search_lengths() -> Vec<Case> {
    let recording = recordings::without_place(RECORDING_MAX);
    let pieces = |length| recording.chunks_exact(length).map(<[u8]>::to_vec).collect();
    let case = |length| Case { label: format!("{length} octets"), work: Work::Search(pieces(length)) };
    [4_096, 8_192, 16_384, 32_768, 65_536].map(case).into()
}

fn list_cases() -> Vec<Case> {
    let case = |name: &str, recording| Case { label: name.to_string(), work: Work::List(recording) };
    let most = RECORDING_MAX / LINE;
    vec![
        case("words alone", recordings::session(most, &[])),
        case("voice and data", recordings::voice_and_data(most)),
        case("lost and found every 20 blocks", recordings::with_losses(most)),
    ]
}

fn list_lengths() -> Vec<Case> {
    let case =
        |blocks| Case { label: format!("{blocks} blocks"), work: Work::List(recordings::voice_and_data(blocks)) };
    [16, 32, 64, 128, 256, 409].map(case).into()
}

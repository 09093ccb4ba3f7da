//! A sender and a reader with their buffers, for tests that take several steps.

use model::frame::{DATA_OCTETS, VOICE_OCTETS};
use model::reader::{self, BlockAnswer, ReaderState};
use model::refusal::Refusal;
use model::sender::{self, Answer, Call, SenderState};
use model::service::Flags;

/// A sender with constant voice and data.
pub struct Sender {
    pub state: SenderState,
    pub mute: bool,
    pub flags: Flags,
    pub voice: Vec<u8>,
    pub data: Vec<u8>,
    pub line: Vec<u8>,
}

impl Sender {
    pub fn new(state: SenderState) -> Sender {
        Sender {
            state,
            mute: false,
            flags: Flags::default(),
            voice: vec![0; VOICE_OCTETS],
            data: vec![0; DATA_OCTETS],
            line: vec![0xA5; 160],
        }
    }

    pub fn muted(state: SenderState) -> Sender {
        Sender { mute: true, ..Sender::new(state) }
    }

    pub fn offer(&mut self, offered: u8) -> Result<Answer, Refusal> {
        let call = Call { mute: self.mute, offered, flags: self.flags, voice: &self.voice, data: &self.data };
        sender::send(&mut self.state, &call, &mut self.line)
    }

    /// The number of the refusal, after which nothing may have changed.
    pub fn refusal(&mut self, offered: u8) -> u8 {
        let before = (self.state, self.line.clone());
        let refusal = self.offer(offered).expect_err("a refusal");
        assert_eq!(before, (self.state, self.line.clone()), "a refusal changes nothing");
        refusal.number()
    }

    /// The code that the last block carries.
    pub fn code_sent(&self) -> u8 {
        let code = (0..=255).find(|&code| model::bas::sent(code) == word_of(&self.line));
        code.expect("a whole word on the line")
    }

    /// Bits 1 to `width` of every octet of the last block.
    pub fn all_bits(&self, width: u32, value: bool) -> bool {
        let mask = !(0xFF >> width) as u8;
        self.line.iter().all(|octet| octet & mask == if value { mask } else { 0 })
    }
}

/// SC bits 9 to 16 of both frames.
pub fn word_of(line: &[u8]) -> [u8; 2] {
    let octet = |start: usize| line[start..start + 8].iter().fold(0, |sum, octet| sum << 1 | octet & 1);
    [octet(8), octet(88)]
}

/// A reader with its buffers.
pub struct Reader {
    pub state: ReaderState,
    pub voice: Vec<u8>,
    pub data: Vec<u8>,
}

impl Reader {
    pub fn new(state: ReaderState) -> Reader {
        Reader { state, voice: vec![0xA5; VOICE_OCTETS], data: vec![0x5A; DATA_OCTETS] }
    }

    pub fn take(&mut self, line: &[u8]) -> BlockAnswer {
        reader::read(&mut self.state, line, &mut self.voice, &mut self.data).expect("an answer")
    }

    pub fn silent(&self) -> bool {
        self.voice.iter().chain(&self.data).all(|&octet| octet == 0)
    }
}

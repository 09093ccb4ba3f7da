//! The sender's state and its step (01, "Sending a block").

use crate::bas;
use crate::bits;
use crate::codes::{self, Mode, AUDIO, AUDIO_OFF, DATA, DATA_OFF, ESCAPE, NEUTRAL};
use crate::crc;
use crate::fault::Fault;
use crate::frame::{self, Block, Half, Owner, Place, BLOCK_OCTETS, DATA_OCTETS, VOICE_OCTETS};
use crate::refusal::{when, Refusal};
use crate::service::{self, Flags};

/// What a sender keeps between blocks. Any value can stand in it; refusal 1 judges.
#[derive(Clone, Copy, Debug, PartialEq, Eq)]
pub struct SenderState {
    /// The chosen audio, a value of (000).
    pub chosen: u8,
    /// The audio in force, a value of (000).
    pub in_force: u8,
    /// The data in force, a value of (011).
    pub data: u8,
    /// The number of the next block, 1 to 8.
    pub block: u8,
    /// Whether the next word is an item.
    pub item_due: bool,
    /// The remainder of the block before.
    pub remainder: u8,
}

impl SenderState {
    /// The state that a session begins with.
    pub const FRESH: SenderState =
        SenderState { chosen: AUDIO_OFF, in_force: AUDIO_OFF, data: DATA_OFF, block: 1, item_due: false, remainder: 0 };

    /// Whether refusal 1 is not given.
    pub fn in_range(&self) -> bool {
        let chosen_beside_data = Mode { audio: self.chosen, data: self.data };
        // In force equals chosen as a value; the same width is not enough (S20).
        let in_force_follows = self.in_force == AUDIO_OFF || self.in_force == self.chosen;
        chosen_beside_data.in_range() && in_force_follows && (1..=8).contains(&self.block) && self.remainder <= 15
    }

    /// The mode that cuts the next block.
    pub fn mode(&self) -> Mode {
        Mode { audio: self.in_force, data: self.data }
    }
}

/// The inputs of one sending call, besides the state and the line block.
#[derive(Clone, Copy, Debug)]
pub struct Call<'a> {
    /// Whether the microphone is off.
    pub mute: bool,
    /// The offered code.
    pub offered: u8,
    /// A, E and T.
    pub flags: Flags,
    /// 140 octets, of which 20w count.
    pub voice: &'a [u8],
    /// 156 octets, of which twice the bits per frame count.
    pub data: &'a [u8],
}

/// What became of the offered code.
#[derive(Clone, Copy, Debug, PartialEq, Eq)]
pub enum Answer {
    /// It went in this block.
    Sent,
    /// Another word went; the caller may offer the code again (S4).
    Held,
}

/// Whose word goes in this block.
#[derive(Clone, Copy, Debug, PartialEq, Eq)]
enum Turn {
    Item,
    MuteOff,
    Release,
    Offered,
}

/// Frames one block into `line` and moves the state on, or refuses and changes nothing.
pub fn send(state: &mut SenderState, call: &Call, line: &mut [u8]) -> Result<Answer, Refusal> {
    send_with(Fault::None, state, call, line)
}

pub(crate) fn send_with(
    fault: Fault,
    state: &mut SenderState,
    call: &Call,
    line: &mut [u8],
) -> Result<Answer, Refusal> {
    when(!state.in_range(), Refusal::State)?;
    when(line.len() != BLOCK_OCTETS, Refusal::LineLength)?;
    when(call.voice.len() != VOICE_OCTETS, Refusal::VoiceLength)?;
    when(call.data.len() != DATA_OCTETS, Refusal::DataLength)?;
    let turn = turn(fault, state, call.mute);
    judge_offered(state, call, turn)?;

    let code = match turn {
        Turn::Item | Turn::Offered => call.offered,
        Turn::MuteOff => codes::code(AUDIO, AUDIO_OFF),
        Turn::Release => codes::code(AUDIO, state.chosen),
    };
    let mut next = after_word(state, turn, code);
    let cut_by = match fault {
        Fault::ActsAtOnce => next.mode(),
        _ => state.mode(),
    };
    let block = block(state, call, code, cut_by);
    next.block = state.block % 8 + 1;
    next.remainder = crc::crc4_with(fault, &block);
    line.copy_from_slice(&block.octets());
    *state = next;
    Ok(match turn {
        Turn::Item | Turn::Offered => Answer::Sent,
        Turn::MuteOff | Turn::Release => Answer::Held,
    })
}

fn turn(fault: Fault, state: &SenderState, mute: bool) -> Turn {
    let in_force_on = state.in_force != AUDIO_OFF;
    let mute_first = fault == Fault::MuteTakesItemSlot && mute && in_force_on;
    if state.item_due && !mute_first {
        Turn::Item
    } else if mute && in_force_on {
        Turn::MuteOff
    } else if !mute && !in_force_on && state.chosen != AUDIO_OFF {
        Turn::Release
    } else {
        Turn::Offered
    }
}

/// Rows 5 to 8. A held code is not judged, and an item by row 6 alone.
fn judge_offered(state: &SenderState, call: &Call, turn: Turn) -> Result<(), Refusal> {
    let attribute = codes::attribute(call.offered);
    match turn {
        Turn::MuteOff | Turn::Release => Ok(()),
        Turn::Item => when(attribute == ESCAPE, Refusal::ForbiddenItem),
        Turn::Offered => {
            when(!codes::carried(call.offered), Refusal::NotCarried)?;
            when(call.mute && attribute == AUDIO, Refusal::AudioWhileMuted)?;
            when(overlaps_other(state, call.offered), Refusal::Overlap)
        }
    }
}

/// Data is judged against the chosen audio, so that a muted one can always come back (S9).
fn overlaps_other(state: &SenderState, code: u8) -> bool {
    let value = codes::value(code);
    match codes::attribute(code) {
        AUDIO => codes::overlap(value, state.data),
        DATA => codes::overlap(state.chosen, value),
        _ => false,
    }
}

/// The state after a word, but for the block number and the remainder.
fn after_word(state: &SenderState, turn: Turn, code: u8) -> SenderState {
    let mut next = SenderState { item_due: false, ..*state };
    match turn {
        Turn::Item => {}
        Turn::MuteOff => next.in_force = AUDIO_OFF,
        Turn::Release => next.in_force = state.chosen,
        Turn::Offered => act(&mut next, code),
    }
    next
}

fn act(next: &mut SenderState, code: u8) {
    match (codes::attribute(code), codes::value(code)) {
        (AUDIO, NEUTRAL) => {
            next.chosen = AUDIO_OFF;
            next.in_force = AUDIO_OFF;
            next.data = DATA_OFF;
        }
        (AUDIO, value) => {
            next.chosen = value;
            next.in_force = value;
        }
        (DATA, value) => next.data = value,
        (ESCAPE, 0..=23) => next.item_due = true,
        _ => {}
    }
}

fn block(state: &SenderState, call: &Call, code: u8, mode: Mode) -> Block {
    let word = bits::from_octets(&bas::sent(code));
    let mut voice = bits::from_octets(call.voice).into_iter();
    let mut data = bits::from_octets(call.data).into_iter();
    // No mode holds more places than its buffer has bits, so the streams do not run dry.
    Block::from_places(|place| match frame::owner(mode, place.octet, place.bit) {
        Owner::Service(number) => {
            let frame = frame_number(state.block, place);
            service::bit(frame, number, call.flags, state.remainder)
        }
        Owner::Bas(number) => match place.half {
            Half::Even => word[number - 9],
            Half::Odd => word[number - 1],
        },
        Owner::Voice => voice.next() == Some(true) || call.mute,
        Owner::Data => data.next() == Some(true),
        Owner::Nobody => true,
    })
}

/// Frames are counted from 0, blocks from 1.
fn frame_number(block: u8, place: Place) -> usize {
    let even = 2 * (usize::from(block) - 1);
    match place.half {
        Half::Even => even,
        Half::Odd => even + 1,
    }
}

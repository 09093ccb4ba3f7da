//! The structs and calls of `include/delampuk.h`, field for field, and the link to the archive that has them. The header
//! says what each call takes and leaves, and what it asks of pointers; the crate `delampuk` keeps that by slices.
//!
//! `tools/gen_boundary.py` writes this file out of `tools/boundary.desc`.

/// The header's version, `DELAMPUK_VERSION`: 10000 major + 100 minor + patch.
pub const VERSION: u32 = 200;

// The length of each buffer in octets; of a recording and of a listing the most.
/// `DELAMPUK_OCTETS_LINE`: a block on the line.
pub const OCTETS_LINE: usize = 160;
/// `DELAMPUK_OCTETS_VOICE`: a voice buffer.
pub const OCTETS_VOICE: usize = 140;
/// `DELAMPUK_OCTETS_LSD`: a buffer of data, H.221's low-speed data.
pub const OCTETS_LSD: usize = 156;
/// `DELAMPUK_OCTETS_RECORDING`: the most that a recording may have.
pub const OCTETS_RECORDING: usize = 65_536;
/// `DELAMPUK_OCTETS_LISTING`: the most that a listing has.
pub const OCTETS_LISTING: usize = 16_384;
/// `DELAMPUK_OCTETS_SAVED_SENDER`: a saved sender.
pub const OCTETS_SAVED_SENDER: usize = 6;
/// `DELAMPUK_OCTETS_SAVED_READER`: a saved reader.
pub const OCTETS_SAVED_READER: usize = 12;
/// `DELAMPUK_OCTETS_SAVED_WALK`: a saved walk.
pub const OCTETS_SAVED_WALK: usize = 21;

// Why a call is refused.
/// `DELAMPUK_REFUSAL_STATE`: the state is out of range.
pub const REFUSAL_STATE: u8 = 1;
/// `DELAMPUK_REFUSAL_LINE`: line is not 160 octets.
pub const REFUSAL_LINE: u8 = 2;
/// `DELAMPUK_REFUSAL_VOICE`: voice is not 140 octets.
pub const REFUSAL_VOICE: u8 = 3;
/// `DELAMPUK_REFUSAL_LSD`: lsd is not 156 octets.
pub const REFUSAL_LSD: u8 = 4;
/// `DELAMPUK_REFUSAL_NOT_CARRIED`: the offered code is not carried as a plain word.
pub const REFUSAL_NOT_CARRIED: u8 = 5;
/// `DELAMPUK_REFUSAL_ITEM`: an item is due, and the offered code has attribute 111.
pub const REFUSAL_ITEM: u8 = 6;
/// `DELAMPUK_REFUSAL_MUTED`: an audio command is offered while mute is set.
pub const REFUSAL_MUTED: u8 = 7;
/// `DELAMPUK_REFUSAL_OVERLAP`: audio and data would hold the same bits.
pub const REFUSAL_OVERLAP: u8 = 8;
/// `DELAMPUK_REFUSAL_RECORDING`: over 65,536 octets; in a search under 168 from the start on; in a step a place past
/// the end.
pub const REFUSAL_RECORDING: u8 = 9;
/// `DELAMPUK_REFUSAL_NO_PLACE`: alignment stands nowhere from the start on.
pub const REFUSAL_NO_PLACE: u8 = 10;
/// `DELAMPUK_REFUSAL_PRESET`: the sixteen bits are no preset.
pub const REFUSAL_PRESET: u8 = 11;

// What a sending call answers.
/// `DELAMPUK_SEND_SENT`.
pub const SEND_SENT: u8 = 0;
/// `DELAMPUK_SEND_HELD`.
pub const SEND_HELD: u8 = 1;
/// `DELAMPUK_SEND_REFUSED`.
pub const SEND_REFUSED: u8 = 2;

// What a reading call answers.
/// `DELAMPUK_READ_BLOCK`.
pub const READ_BLOCK: u8 = 0;
/// `DELAMPUK_READ_REFUSED`.
pub const READ_REFUSED: u8 = 1;

// What a step of a walk answers.
/// `DELAMPUK_STEP_BLOCK`.
pub const STEP_BLOCK: u8 = 0;
/// `DELAMPUK_STEP_PLACE`.
pub const STEP_PLACE: u8 = 1;
/// `DELAMPUK_STEP_END`.
pub const STEP_END: u8 = 2;
/// `DELAMPUK_STEP_REFUSED`.
pub const STEP_REFUSED: u8 = 3;

// How a block was taken.
/// `DELAMPUK_STANDING_WAITING`.
pub const STANDING_WAITING: u8 = 0;
/// `DELAMPUK_STANDING_READ`.
pub const STANDING_READ: u8 = 1;
/// `DELAMPUK_STANDING_LOST`.
pub const STANDING_LOST: u8 = 2;

// What the CRC says.
/// `DELAMPUK_VERDICT_NONE`.
pub const VERDICT_NONE: u8 = 0;
/// `DELAMPUK_VERDICT_GOOD`.
pub const VERDICT_GOOD: u8 = 1;
/// `DELAMPUK_VERDICT_BAD`.
pub const VERDICT_BAD: u8 = 2;

// The reading of a BAS word.
/// `DELAMPUK_WORD_MENDED`: a plain word.
pub const WORD_MENDED: u8 = 0;
/// `DELAMPUK_WORD_ITEM`.
pub const WORD_ITEM: u8 = 1;
/// `DELAMPUK_WORD_MESSAGE`.
pub const WORD_MESSAGE: u8 = 2;
/// `DELAMPUK_WORD_FORBIDDEN`: an item with attribute 111.
pub const WORD_FORBIDDEN: u8 = 3;
/// `DELAMPUK_WORD_NOT_FOLLOWED`.
pub const WORD_NOT_FOLLOWED: u8 = 4;
/// `DELAMPUK_WORD_UNREADABLE`.
pub const WORD_UNREADABLE: u8 = 5;
/// `DELAMPUK_WORD_NOT_READ`.
pub const WORD_NOT_READ: u8 = 6;

// Which word is due.
/// `DELAMPUK_DUE_PLAIN`: a plain word.
pub const DUE_PLAIN: u8 = 0;
/// `DELAMPUK_DUE_ITEM`: an item.
pub const DUE_ITEM: u8 = 1;
/// `DELAMPUK_DUE_LENGTH`: the length of a message.
pub const DUE_LENGTH: u8 = 2;
/// `DELAMPUK_DUE_MESSAGE`: words of a message.
pub const DUE_MESSAGE: u8 = 3;

// What a code is.
/// `DELAMPUK_CODE_OTHER`: none of these.
pub const CODE_OTHER: u8 = 0;
/// `DELAMPUK_CODE_NEUTRAL`: audio and data off.
pub const CODE_NEUTRAL: u8 = 1;
/// `DELAMPUK_CODE_AUDIO`: an audio command.
pub const CODE_AUDIO: u8 = 2;
/// `DELAMPUK_CODE_LSD`: a data command.
pub const CODE_LSD: u8 = 3;
/// `DELAMPUK_CODE_ESCAPE`: makes the next word an item.
pub const CODE_ESCAPE: u8 = 4;
/// `DELAMPUK_CODE_MESSAGE`: opens a message.
pub const CODE_MESSAGE: u8 = 5;

// What a loading call answers.
/// `DELAMPUK_LOAD_NO_FORM`: no saved form has this length; the state is as it was.
pub const LOAD_NO_FORM: u8 = 0;
/// `DELAMPUK_LOAD_LOADED`.
pub const LOAD_LOADED: u8 = 1;

// What a saving call answers.
/// `DELAMPUK_SAVE_NO_ROOM`: the buffer has another length; it is as it was.
pub const SAVE_NO_ROOM: u8 = 0;
/// `DELAMPUK_SAVE_SAVED`.
pub const SAVE_SAVED: u8 = 1;

/// `struct delampuk_mode`: what is in force.
#[derive(Clone, Copy, Debug, PartialEq, Eq)]
#[repr(C)]
pub struct Mode {
    /// An audio value of (000), 31 being off.
    pub audio: u8,
    /// A data value of (011), 0 being off.
    pub lsd: u8,
}

/// `struct delampuk_sender`: what a sender keeps between blocks.
#[derive(Clone, Copy, Debug, PartialEq, Eq)]
#[repr(C)]
pub struct Sender {
    /// The chosen audio, which may be muted; 31 is off.
    pub chosen: u8,
    /// What is in force.
    pub mode: Mode,
    /// The next block's number, 1 to 8.
    pub block: u8,
    /// 0, or another number where the next word is an item.
    pub due: u8,
    /// The remainder (CRC-4) of the block before, at most 15.
    pub remainder: u8,
}

/// `struct delampuk_send_answer`: a sending call's answer.
#[derive(Clone, Copy, Debug, PartialEq, Eq)]
#[repr(C)]
pub struct SendAnswer {
    /// SEND_SENT, _HELD or _REFUSED.
    pub kind: u8,
    /// The refusal's, 1 to 8, or 0.
    pub number: u8,
}

/// `struct delampuk_sender_told`: what a sender's state tells.
#[derive(Clone, Copy, Debug, PartialEq, Eq)]
#[repr(C)]
pub struct SenderTold {
    /// What is in force in the next block.
    pub mode: Mode,
    /// The chosen audio, which may be muted.
    pub chosen: u8,
    /// Which word is due: DUE_PLAIN or _ITEM.
    pub due: u8,
}

/// `struct delampuk_preset_answer`: what the reading of a preset answers.
#[derive(Clone, Copy, Debug, PartialEq, Eq)]
#[repr(C)]
pub struct PresetAnswer {
    /// The data code to offer until it is sent.
    pub offer: u8,
    /// 11 or 0.
    pub number: u8,
}

/// `struct delampuk_preset_bits`: a preset.
#[derive(Clone, Copy, Debug, PartialEq, Eq)]
#[repr(C)]
pub struct PresetBits {
    /// Audio value (5 bits), data value (5), six zeros; 0 where it is refused.
    pub bits: u16,
    /// 1 or 0.
    pub number: u8,
    /// 0.
    pub reserved: u8,
}

/// `struct delampuk_slot`: what a reader takes the next word for.
#[derive(Clone, Copy, Debug, PartialEq, Eq)]
#[repr(C)]
pub struct Slot {
    /// 0 a plain word, 1 an item, 2 the length of a message, and every other number a message.
    pub kind: u8,
    /// How many words of the message are left.
    pub words: u8,
}

/// `struct delampuk_reader`: what a reader keeps between blocks.
#[derive(Clone, Copy, Debug, PartialEq, Eq)]
#[repr(C)]
pub struct Reader {
    /// What is in force.
    pub mode: Mode,
    /// The mode to go back to where alignment is lost.
    pub kept: Mode,
    /// The run of wrong alignment words, at most 2.
    pub wrong: u8,
    /// The next block's number, 1 to 8, or 0 while it is unknown.
    pub block: u8,
    /// The last first bits of odd frames.
    pub firsts: u8,
    /// The run of wrong patterns, at most 2.
    pub misses: u8,
    /// What is due.
    pub slot: Slot,
    /// 0, or another number where there is a block before.
    pub before: u8,
    /// Its remainder (CRC-4), at most 15.
    pub remainder: u8,
}

/// `struct delampuk_block_answer`: what is told of a block.
#[derive(Clone, Copy, Debug, PartialEq, Eq)]
#[repr(C)]
pub struct BlockAnswer {
    /// STANDING_WAITING, _READ or _LOST.
    pub standing: u8,
    /// VERDICT_NONE, _GOOD or _BAD.
    pub verdict: u8,
    /// Of the BAS word: WORD_MENDED to _NOT_READ.
    pub reading: u8,
    /// The word's code, 0 where it is unreadable or not read.
    pub code: u8,
}

/// `struct delampuk_read_answer`: a reading call's answer.
#[derive(Clone, Copy, Debug, PartialEq, Eq)]
#[repr(C)]
pub struct ReadAnswer {
    /// READ_BLOCK or _REFUSED.
    pub kind: u8,
    /// The refusal's, 1 to 4, or 0.
    pub number: u8,
    /// What is told of the block.
    pub block: BlockAnswer,
}

/// `struct delampuk_reader_told`: what a reader's state tells.
#[derive(Clone, Copy, Debug, PartialEq, Eq)]
#[repr(C)]
pub struct ReaderTold {
    /// What is in force in the next block.
    pub mode: Mode,
    /// The next block's number, 0 while it is unknown.
    pub block: u8,
    /// Which word is due: DUE_PLAIN to _MESSAGE.
    pub due: u8,
    /// How many words of a message are left, 0 where none is due.
    pub words: u8,
}

/// `struct delampuk_search_answer`: what a search answers.
#[derive(Clone, Copy, Debug, PartialEq, Eq)]
#[repr(C)]
pub struct SearchAnswer {
    /// The smallest place from the start on, an octet of the whole recording; 0 where it is refused.
    pub place: usize,
    /// 9, 10, or 0 where a place was found.
    pub number: u8,
    /// 0.
    pub reserved: [u8; 7],
}

/// `struct delampuk_walk`: what a walk over a recording keeps between steps.
#[derive(Clone, Copy, Debug, PartialEq, Eq)]
#[repr(C)]
pub struct Walk {
    /// The octet of the recording where the walk stands.
    pub place: usize,
    /// What its reader keeps.
    pub reader: Reader,
    /// 0, or another number where the block before was lost.
    pub lost: u8,
    /// 0 from start and load; a step leaves them as they are.
    pub reserved: [u8; 3],
}

/// `struct delampuk_step_answer`: a step's answer.
#[derive(Clone, Copy, Debug, PartialEq, Eq)]
#[repr(C)]
pub struct StepAnswer {
    /// The place found, or the octets left at the end; 0 for the other two.
    pub value: usize,
    /// STEP_BLOCK, _PLACE, _END or _REFUSED.
    pub kind: u8,
    /// The refusal's, 1, 3, 4 or 9, or 0.
    pub number: u8,
    /// What is told of the block.
    pub block: BlockAnswer,
    /// 0.
    pub reserved: [u8; 2],
}

/// `struct delampuk_counts`: how much of a block's buffers counts.
#[derive(Clone, Copy, Debug, PartialEq, Eq)]
#[repr(C)]
pub struct Counts {
    /// Octets of the voice buffer.
    pub voice: u16,
    /// Bits of the data buffer.
    pub lsd: u16,
}

/// `struct delampuk_code`: what a code is.
#[derive(Clone, Copy, Debug, PartialEq, Eq)]
#[repr(C)]
pub struct Code {
    /// CODE_OTHER to _MESSAGE.
    pub kind: u8,
    /// 1 where a sender carries it as a plain word, else 0.
    pub carried: u8,
    /// Of the octet bits that it holds, the first.
    pub first_bit: u8,
    /// The last; for none 1 to 0, and for a data command 8 to 7.
    pub last_bit: u8,
    /// Of the octets whose bit 8 it holds, the first.
    pub first_sc: u8,
    /// The last; for none 17 to 16.
    pub last_sc: u8,
}

/// `struct delampuk_library`: what an archive says of itself.
#[derive(Clone, Copy, Debug, PartialEq, Eq)]
#[repr(C)]
pub struct Library {
    /// 10000 major + 100 minor + patch.
    pub version: u32,
    /// The octets of a struct delampuk_sender.
    pub sender: u16,
    /// Of a struct delampuk_reader.
    pub reader: u16,
    /// Of a struct delampuk_walk.
    pub walk: u16,
    /// 0.
    pub reserved: u16,
}

extern "C" {
    /// Answers the version of the archive, and how long its states are.
    pub fn delampuk_about() -> Library;
    /// Answers whether a program that was compiled with the header of a version may use the archive.
    pub fn delampuk_fits(version: u32) -> u8;
    /// Fills *state with the state that a session starts in: audio and data off, block 1 of 8 next, nothing due.
    pub fn delampuk_start_sender(state: *mut Sender);
    /// Sends one block into line and advances *state.
    pub fn delampuk_send(
        state: *mut Sender,
        mute: u8,
        code: u8,
        a: u8,
        e: u8,
        t: u8,
        voice: *const u8,
        voice_length: usize,
        lsd: *const u8,
        lsd_length: usize,
        line: *mut u8,
        line_length: usize,
    ) -> SendAnswer;
    /// Tells what is in force, what audio is chosen and which word is due.
    pub fn delampuk_tell_sender(state: *const Sender) -> SenderTold;
    /// Writes *state into saved, OCTETS_SAVED_SENDER octets, in a form that this and every later version loads.
    pub fn delampuk_save_sender(state: *const Sender, saved: *mut u8, saved_length: usize) -> u8;
    /// Fills *state from a saved form, which is known by its length.
    pub fn delampuk_load_sender(state: *mut Sender, saved: *const u8, saved_length: usize) -> u8;
    /// Fills *state from a preset: fresh, with its chosen audio.
    pub fn delampuk_read_preset(state: *mut Sender, bits: u16) -> PresetAnswer;
    /// Answers the chosen audio and the data in force of *state, as a preset.
    pub fn delampuk_write_preset(state: *const Sender) -> PresetBits;
    /// Fills *state with the state that a reader starts in: audio and data off, place unknown, no block before.
    pub fn delampuk_start_reader(state: *mut Reader);
    /// Reads one block of 160 octets and advances *state.
    pub fn delampuk_read(
        state: *mut Reader,
        line: *const u8,
        line_length: usize,
        voice: *mut u8,
        voice_length: usize,
        lsd: *mut u8,
        lsd_length: usize,
    ) -> ReadAnswer;
    /// Tells what is in force, the next block's number, and which word is due.
    pub fn delampuk_tell_reader(state: *const Reader) -> ReaderTold;
    /// Writes *state into saved, OCTETS_SAVED_READER octets; as delampuk_save_sender.
    pub fn delampuk_save_reader(state: *const Reader, saved: *mut u8, saved_length: usize) -> u8;
    /// Fills *state from a saved form of a reader; as delampuk_load_sender.
    pub fn delampuk_load_reader(state: *mut Reader, saved: *const u8, saved_length: usize) -> u8;
    /// Searches a recording, from octet start on, for the smallest place where alignment stands.
    pub fn delampuk_search(recording: *const u8, recording_length: usize, start: usize) -> SearchAnswer;
    /// Fills *state with a walk that starts at a place, such as delampuk_search has found: a fresh reader, no block
    /// lost.
    pub fn delampuk_start_walk(state: *mut Walk, place: usize);
    /// Goes one step of a walk over a recording.
    pub fn delampuk_step(
        state: *mut Walk,
        recording: *const u8,
        recording_length: usize,
        voice: *mut u8,
        voice_length: usize,
        lsd: *mut u8,
        lsd_length: usize,
    ) -> StepAnswer;
    /// Writes *state into saved, OCTETS_SAVED_WALK octets; as delampuk_save_sender.
    pub fn delampuk_save_walk(state: *const Walk, saved: *mut u8, saved_length: usize) -> u8;
    /// Fills *state from a saved form of a walk; as delampuk_load_sender.
    pub fn delampuk_load_walk(state: *mut Walk, saved: *const u8, saved_length: usize) -> u8;
    /// Writes the listing of a recording into text, octet for octet what the program `listing` writes.
    pub fn delampuk_list(recording: *const u8, recording_length: usize, text: *mut u8, text_length: usize) -> usize;
    /// Tells how many octets of voice and how many bits of data a block has under a mode.
    pub fn delampuk_count(mode: Mode) -> Counts;
    /// Tells what a code is: every code has an answer.
    pub fn delampuk_explain(code: u8) -> Code;
}

/// The layout that the library was compiled for. No struct has padding, so its length settles where each field is.
mod layout {
    use super::*;
    use core::mem::size_of;

    const _: () = assert!(size_of::<usize>() == 8);
    const _: () = assert!(size_of::<Mode>() == 2);
    const _: () = assert!(size_of::<Sender>() == 6);
    const _: () = assert!(size_of::<SendAnswer>() == 2);
    const _: () = assert!(size_of::<SenderTold>() == 4);
    const _: () = assert!(size_of::<PresetAnswer>() == 2);
    const _: () = assert!(size_of::<PresetBits>() == 4);
    const _: () = assert!(size_of::<Slot>() == 2);
    const _: () = assert!(size_of::<Reader>() == 12);
    const _: () = assert!(size_of::<BlockAnswer>() == 4);
    const _: () = assert!(size_of::<ReadAnswer>() == 6);
    const _: () = assert!(size_of::<ReaderTold>() == 5);
    const _: () = assert!(size_of::<SearchAnswer>() == 16);
    const _: () = assert!(size_of::<Walk>() == 24);
    const _: () = assert!(size_of::<StepAnswer>() == 16);
    const _: () = assert!(size_of::<Counts>() == 4);
    const _: () = assert!(size_of::<Code>() == 6);
    const _: () = assert!(size_of::<Library>() == 12);
}

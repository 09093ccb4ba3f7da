//! The calls of `include/delampuk.h`, each behind a safe function. The crate has no other unsafe code.
//!
//! The header asks of a buffer that its pointer is not null and that as many octets as its length says are there for the
//! whole call, and of what a call writes that it overlaps nothing else that the call is given. Slices and references have
//! all of that: their pointers are never null, not even those of empty slices, and a unique borrow overlaps nothing. The
//! library keeps no pointer after a call. States are numbers alone, of which it takes any.
//!
//! An archive of another version may have other structs and calls under the same names. So every function that takes no
//! state asks first whether the archive fits. Those that take one need not, since states come from these alone.
#![allow(unsafe_code)]

use std::mem::MaybeUninit;
use std::sync::Once;

use delampuk_sys::{
    delampuk_about, delampuk_count, delampuk_explain, delampuk_fits, delampuk_list, delampuk_load_reader,
    delampuk_load_sender, delampuk_load_walk, delampuk_read, delampuk_read_preset, delampuk_save_reader,
    delampuk_save_sender, delampuk_save_walk, delampuk_search, delampuk_send, delampuk_start_reader,
    delampuk_start_sender, delampuk_start_walk, delampuk_step, delampuk_tell_reader, delampuk_tell_sender,
    delampuk_write_preset, Code, Counts, Library, PresetAnswer, PresetBits, ReadAnswer, ReaderTold, SearchAnswer,
    SendAnswer, SenderTold, StepAnswer, OCTETS_SAVED_READER, OCTETS_SAVED_SENDER, OCTETS_SAVED_WALK, VERSION,
};
pub use delampuk_sys::{BlockAnswer, Mode, Reader, Sender, Walk};

use crate::{Call, Version};

/// Whether the archive has this version. Every archive has this call since 0.2.0; an older one does not link.
pub fn fits(version: u32) -> bool {
    // SAFETY: the call takes a number, of which any will do, and gives a number.
    unsafe { delampuk_fits(version) == 1 }
}

/// Ends the program where the archive is not of this version.
fn ask_for(version: u32) {
    let text = Version::from_number(version);
    assert!(fits(version), "the linked libdelampuk.a is not of version {text}, which this crate is written for");
}

/// Ends the program where the archive is not of this crate's version. It is asked once.
fn ask_once() {
    static ASKED: Once = Once::new();
    ASKED.call_once(|| ask_for(VERSION));
}

pub fn about() -> Library {
    ask_once();
    // SAFETY: the call takes nothing and gives numbers.
    unsafe { delampuk_about() }
}

pub fn start_sender() -> Sender {
    ask_once();
    let mut state = MaybeUninit::zeroed();
    // SAFETY: the state is borrowed alone and can be written; it is zeros before the call and filled after it, and any
    // numbers are a state.
    unsafe {
        delampuk_start_sender(state.as_mut_ptr());
        state.assume_init()
    }
}

pub fn send(state: &mut Sender, call: &Call, voice: &[u8], lsd: &[u8], line: &mut [u8]) -> SendAnswer {
    let [mute, a, e, t] = [call.mute, call.a, call.e, call.t].map(u8::from);
    // SAFETY: `state` and `line` are borrowed alone, so they overlap neither each other nor `voice` or `lsd`, and
    // nobody else looks at them meanwhile. Each pointer goes with the length of its own slice.
    unsafe {
        delampuk_send(
            state,
            mute,
            call.code,
            a,
            e,
            t,
            voice.as_ptr(),
            voice.len(),
            lsd.as_ptr(),
            lsd.len(),
            line.as_mut_ptr(),
            line.len(),
        )
    }
}

pub fn tell_sender(state: &Sender) -> SenderTold {
    // SAFETY: `state` is borrowed for the call, which writes nothing.
    unsafe { delampuk_tell_sender(state) }
}

pub fn save_sender(state: &Sender, saved: &mut [u8; OCTETS_SAVED_SENDER]) -> u8 {
    // SAFETY: `saved` is borrowed alone, so it does not overlap `state`, and its pointer goes with its length.
    unsafe { delampuk_save_sender(state, saved.as_mut_ptr(), saved.len()) }
}

pub fn load_sender(saved: &[u8]) -> (Sender, u8) {
    let mut state = start_sender();
    // SAFETY: `state` is borrowed alone, so it does not overlap `saved`, whose pointer goes with its length.
    let answer = unsafe { delampuk_load_sender(&mut state, saved.as_ptr(), saved.len()) };
    (state, answer)
}

pub fn read_preset(bits: u16) -> (Sender, PresetAnswer) {
    let mut state = start_sender();
    // SAFETY: `state` is borrowed alone. Any bits will do.
    let answer = unsafe { delampuk_read_preset(&mut state, bits) };
    (state, answer)
}

pub fn write_preset(state: &Sender) -> PresetBits {
    // SAFETY: `state` is borrowed for the call, which writes nothing.
    unsafe { delampuk_write_preset(state) }
}

pub fn start_reader() -> Reader {
    ask_once();
    let mut state = MaybeUninit::zeroed();
    // SAFETY: the state is borrowed alone and can be written; it is zeros before the call and filled after it, and any
    // numbers are a state.
    unsafe {
        delampuk_start_reader(state.as_mut_ptr());
        state.assume_init()
    }
}

pub fn read(state: &mut Reader, line: &[u8], voice: &mut [u8], lsd: &mut [u8]) -> ReadAnswer {
    // SAFETY: `state`, `voice` and `lsd` are borrowed alone, so they overlap neither each other nor `line`, and nobody
    // else looks at them meanwhile. Each pointer goes with the length of its own slice.
    unsafe {
        delampuk_read(state, line.as_ptr(), line.len(), voice.as_mut_ptr(), voice.len(), lsd.as_mut_ptr(), lsd.len())
    }
}

pub fn tell_reader(state: &Reader) -> ReaderTold {
    // SAFETY: `state` is borrowed for the call, which writes nothing.
    unsafe { delampuk_tell_reader(state) }
}

pub fn save_reader(state: &Reader, saved: &mut [u8; OCTETS_SAVED_READER]) -> u8 {
    // SAFETY: `saved` is borrowed alone, so it does not overlap `state`, and its pointer goes with its length.
    unsafe { delampuk_save_reader(state, saved.as_mut_ptr(), saved.len()) }
}

pub fn load_reader(saved: &[u8]) -> (Reader, u8) {
    let mut state = start_reader();
    // SAFETY: `state` is borrowed alone, so it does not overlap `saved`, whose pointer goes with its length.
    let answer = unsafe { delampuk_load_reader(&mut state, saved.as_ptr(), saved.len()) };
    (state, answer)
}

pub fn search(recording: &[u8], start: usize) -> SearchAnswer {
    ask_once();
    // SAFETY: `recording` is borrowed for the call, which writes nothing, and its pointer goes with its length. Any
    // start will do.
    unsafe { delampuk_search(recording.as_ptr(), recording.len(), start) }
}

pub fn start_walk(place: usize) -> Walk {
    ask_once();
    let mut state = MaybeUninit::zeroed();
    // SAFETY: the state is borrowed alone and can be written; it is zeros before the call and filled after it, and any
    // numbers are a state. Any place will do.
    unsafe {
        delampuk_start_walk(state.as_mut_ptr(), place);
        state.assume_init()
    }
}

pub fn step(state: &mut Walk, recording: &[u8], voice: &mut [u8], lsd: &mut [u8]) -> StepAnswer {
    // SAFETY: `state`, `voice` and `lsd` are borrowed alone, so they overlap neither each other nor `recording`, and
    // nobody else looks at them meanwhile. Each pointer goes with the length of its own slice.
    unsafe {
        delampuk_step(
            state,
            recording.as_ptr(),
            recording.len(),
            voice.as_mut_ptr(),
            voice.len(),
            lsd.as_mut_ptr(),
            lsd.len(),
        )
    }
}

pub fn save_walk(state: &Walk, saved: &mut [u8; OCTETS_SAVED_WALK]) -> u8 {
    // SAFETY: `saved` is borrowed alone, so it does not overlap `state`, and its pointer goes with its length.
    unsafe { delampuk_save_walk(state, saved.as_mut_ptr(), saved.len()) }
}

pub fn load_walk(saved: &[u8]) -> (Walk, u8) {
    let mut state = start_walk(0);
    // SAFETY: `state` is borrowed alone, so it does not overlap `saved`, whose pointer goes with its length.
    let answer = unsafe { delampuk_load_walk(&mut state, saved.as_ptr(), saved.len()) };
    (state, answer)
}

pub fn list(recording: &[u8], text: &mut [u8]) -> usize {
    ask_once();
    // SAFETY: `text` is borrowed alone, so it does not overlap `recording`, and nobody else looks at it meanwhile. Each
    // pointer goes with the length of its own slice.
    unsafe { delampuk_list(recording.as_ptr(), recording.len(), text.as_mut_ptr(), text.len()) }
}

pub fn count(mode: Mode) -> Counts {
    ask_once();
    // SAFETY: the call takes numbers, of which any will do, and gives numbers.
    unsafe { delampuk_count(mode) }
}

pub fn explain(code: u8) -> Code {
    ask_once();
    // SAFETY: the call takes a number, of which any will do, and gives numbers.
    unsafe { delampuk_explain(code) }
}

#[cfg(test)]
mod tests {
    use std::mem::size_of;

    use super::{about, ask_for, Reader, Sender, Walk, VERSION};

    #[test]
    fn the_linked_archive_has_this_version_and_these_states() {
        ask_for(VERSION);
        let told = about();
        let sizes = [told.sender, told.reader, told.walk].map(usize::from);
        assert_eq!((told.version, sizes), (VERSION, [size_of::<Sender>(), size_of::<Reader>(), size_of::<Walk>()]));
    }

    #[test]
    #[should_panic(expected = "which this crate is written for")]
    fn an_archive_of_another_version_ends_the_program() {
        ask_for(VERSION + 1);
    }
}

//! Calls through C, in the forms of `include/delampuk.h`.

use super::Contestant;
use crate::forms::{Offer, ReadAnswer, Reader, SearchAnswer, SendAnswer, Sender};

/// The sending call: state, mute, code, A, E, T, voice, lsd and line, each buffer with its length.
pub type Send = unsafe extern "C" fn(
    *mut Sender,
    u8,
    u8,
    u8,
    u8,
    u8,
    *const u8,
    usize,
    *const u8,
    usize,
    *mut u8,
    usize,
) -> SendAnswer;

/// The reading call: state, line, voice and lsd, each buffer with its length.
pub type Read = unsafe extern "C" fn(*mut Reader, *const u8, usize, *mut u8, usize, *mut u8, usize) -> ReadAnswer;

/// The search: a recording with its length, and where to begin.
pub type Search = unsafe extern "C" fn(*const u8, usize, usize) -> SearchAnswer;

/// The listing: a recording and a text, each with its length; the answer is the listing's length.
pub type List = unsafe extern "C" fn(*const u8, usize, *mut u8, usize) -> usize;

/// What a reading call is, by whichever form it is handed its state.
pub trait Reads {
    /// Reads one block.
    fn read(&self, state: &mut Reader, line: &[u8], voice: &mut [u8], lsd: &mut [u8]) -> ReadAnswer;
}

// As for `InC` below.
impl Reads for Read {
    fn read(&self, state: &mut Reader, line: &[u8], voice: &mut [u8], lsd: &mut [u8]) -> ReadAnswer {
        let (voice_length, lsd_length) = (voice.len(), lsd.len());
        unsafe {
            self(state, line.as_ptr(), line.len(), voice.as_mut_ptr(), voice_length, lsd.as_mut_ptr(), lsd_length)
        }
    }
}

/// A contestant that is called through C.
pub struct InC<R = Read> {
    /// Its name in the tables.
    pub name: &'static str,
    /// Its sending call.
    pub send: Send,
    /// Its reading call.
    pub read: R,
    /// Its search.
    pub search: Search,
    /// Its listing.
    pub list: List,
}

// Each call is given pointers and lengths of slices that are borrowed for its duration, those that it writes
// exclusively; the functions behind keep to the header, which asks for no more.
impl<R: Reads> Contestant for InC<R> {
    fn name(&self) -> &'static str {
        self.name
    }

    fn send(&self, state: &mut Sender, offer: &Offer, line: &mut [u8]) -> SendAnswer {
        let ([a, e, t], voice, lsd) = (offer.flags, offer.voice, offer.lsd);
        unsafe {
            (self.send)(
                state,
                offer.mute.into(),
                offer.code,
                a.into(),
                e.into(),
                t.into(),
                voice.as_ptr(),
                voice.len(),
                lsd.as_ptr(),
                lsd.len(),
                line.as_mut_ptr(),
                line.len(),
            )
        }
    }

    fn read(&self, state: &mut Reader, line: &[u8], voice: &mut [u8], lsd: &mut [u8]) -> ReadAnswer {
        self.read.read(state, line, voice, lsd)
    }

    fn search(&self, recording: &[u8], start: usize) -> SearchAnswer {
        unsafe { (self.search)(recording.as_ptr(), recording.len(), start) }
    }

    fn list(&self, recording: &[u8], text: &mut [u8]) -> usize {
        unsafe { (self.list)(recording.as_ptr(), recording.len(), text.as_mut_ptr(), text.len()) }
    }
}

/// Declares a contestant's sending call and its listing by their names in C.
#[cfg(any(feature = "contestants", before))]
macro_rules! send_and_list {
    ($send:ident, $list:ident) => {
        extern "C" {
            fn $send(
                state: *mut crate::forms::Sender,
                mute: u8,
                code: u8,
                a: u8,
                e: u8,
                t: u8,
                voice: *const u8,
                voice_length: usize,
                lsd: *const u8,
                lsd_length: usize,
                line: *mut u8,
                line_length: usize,
            ) -> crate::forms::SendAnswer;
            fn $list(recording: *const u8, length: usize, text: *mut u8, text_length: usize) -> usize;
        }
    };
}
#[cfg(any(feature = "contestants", before))]
pub(super) use send_and_list;

/// Declares the calls of a contestant by their names in C.
#[cfg(any(feature = "contestants", all(before, not(before_by_value))))]
macro_rules! calls {
    ($name:literal, $send:ident, $read:ident, $search:ident, $list:ident) => {
        crate::contestants::in_c::send_and_list!($send, $list);
        extern "C" {
            fn $read(
                state: *mut crate::forms::Reader,
                line: *const u8,
                line_length: usize,
                voice: *mut u8,
                voice_length: usize,
                lsd: *mut u8,
                lsd_length: usize,
            ) -> crate::forms::ReadAnswer;
            fn $search(recording: *const u8, length: usize, start: usize) -> crate::forms::SearchAnswer;
        }
        /// The calls of this contestant.
        pub const CALLS: crate::contestants::in_c::InC =
            crate::contestants::in_c::InC { name: $name, send: $send, read: $read, search: $search, list: $list };
    };
}
#[cfg(any(feature = "contestants", all(before, not(before_by_value))))]
pub(super) use calls;

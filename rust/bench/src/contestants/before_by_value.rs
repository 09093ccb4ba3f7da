//! `before`: the library out of an archive before version 0.2.0, whose names `build.rs` has given a prefix. A reading call
//! was handed its state by value and gave it back (`by_value.h`); a driver kept it, as is done here.

use super::in_c::{send_and_list, InC, Reads};
use crate::forms::{ReadAnswer, Reader, SearchAnswer};

#[repr(C)]
struct ReadOutcome {
    state: Reader,
    answer: ReadAnswer,
}

#[repr(C)]
struct SearchAnswerThen {
    number: u8,
    place: usize,
}

send_and_list!(before_delampuk_send, before_delampuk_list);

extern "C" {
    fn before_delampuk_read(
        state: Reader,
        line: *const u8,
        line_length: usize,
        voice: *mut u8,
        voice_length: usize,
        lsd: *mut u8,
        lsd_length: usize,
    ) -> ReadOutcome;
    fn before_delampuk_search(recording: *const u8, length: usize, start: usize) -> SearchAnswerThen;
}

/// The reading call by value.
pub struct ByValue;

// As for `InC`.
impl Reads for ByValue {
    fn read(&self, state: &mut Reader, line: &[u8], voice: &mut [u8], lsd: &mut [u8]) -> ReadAnswer {
        let (voice_length, lsd_length) = (voice.len(), lsd.len());
        let outcome = unsafe {
            before_delampuk_read(
                *state,
                line.as_ptr(),
                line.len(),
                voice.as_mut_ptr(),
                voice_length,
                lsd.as_mut_ptr(),
                lsd_length,
            )
        };
        *state = outcome.state;
        outcome.answer
    }
}

/// The search with today's answer.
unsafe extern "C" fn search(recording: *const u8, length: usize, start: usize) -> SearchAnswer {
    let SearchAnswerThen { number, place } = before_delampuk_search(recording, length, start);
    SearchAnswer { place, number, reserved: [0; 7] }
}

/// The calls of this contestant.
pub const CALLS: InC<ByValue> =
    InC { name: "before", send: before_delampuk_send, read: ByValue, search, list: before_delampuk_list };

//! Saved states.

use std::error::Error;
use std::fmt;

use delampuk_sys::{LOAD_LOADED, LOAD_NO_FORM, SAVE_SAVED};

use crate::refusal::unknown;

/// Why a state is not loaded: no version of the library saves one in so many octets.
///
/// It is no [`Refusal`](crate::Refusal): a saved form of the right length is loaded whatever its octets are, and the
/// calls of a state that is out of range then refuse.
#[derive(Clone, Copy, Debug, PartialEq, Eq, Hash)]
pub struct NoSavedForm {
    /// The octets that were given.
    pub length: usize,
}

impl fmt::Display for NoSavedForm {
    fn fmt(&self, out: &mut fmt::Formatter) -> fmt::Result {
        write!(out, "no saved form of this state has {} octets", self.length)
    }
}

impl Error for NoSavedForm {}

/// The octets that a call has saved. It takes a buffer of exactly this length and so never refuses.
pub(crate) fn saved<const N: usize>(save: impl FnOnce(&mut [u8; N]) -> u8) -> [u8; N] {
    let mut octets = [0; N];
    match save(&mut octets) {
        SAVE_SAVED => octets,
        number => unknown("saving", number),
    }
}

/// The state that a call has loaded from so many octets, by its answer.
pub(crate) fn loaded<S>((state, answer): (S, u8), length: usize) -> Result<S, NoSavedForm> {
    match answer {
        LOAD_LOADED => Ok(state),
        LOAD_NO_FORM => Err(NoSavedForm { length }),
        number => unknown("loading", number),
    }
}

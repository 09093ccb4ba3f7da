//! The implementations that are compared, each behind the same calls.

#[cfg(all(before, not(before_by_value)))]
mod before;
#[cfg(before_by_value)]
#[path = "before_by_value.rs"]
mod before;
mod in_c;
#[cfg(feature = "contestants")]
mod limit;
mod of_model;
mod ours;
#[cfg(feature = "contestants")]
mod plain;

use crate::forms::{Offer, ReadAnswer, Reader, SearchAnswer, SendAnswer, Sender};

/// An implementation of document 01.
pub trait Contestant {
    /// Its name in the tables.
    fn name(&self) -> &'static str;
    /// Sends one block.
    fn send(&self, state: &mut Sender, offer: &Offer, line: &mut [u8]) -> SendAnswer;
    /// Reads one block.
    fn read(&self, state: &mut Reader, line: &[u8], voice: &mut [u8], lsd: &mut [u8]) -> ReadAnswer;
    /// Searches a recording for alignment.
    fn search(&self, recording: &[u8], start: usize) -> SearchAnswer;
    /// Writes the listing of a recording and answers its length.
    fn list(&self, recording: &[u8], text: &mut [u8]) -> usize;
}

/// All of them, the library first and the model last.
pub fn all() -> Vec<Box<dyn Contestant>> {
    let mut all = vec![ours()];
    #[cfg(feature = "contestants")]
    all.extend([Box::new(plain::Plain) as Box<dyn Contestant>, Box::new(limit::CALLS)]);
    all.push(Box::new(of_model::Model));
    all
}

/// The library as it is.
pub fn ours() -> Box<dyn Contestant> {
    Box::new(ours::CALLS)
}

/// The library out of an earlier archive, if one is linked.
pub fn before() -> Option<Box<dyn Contestant>> {
    #[cfg(before)]
    return Some(Box::new(before::CALLS));
    #[cfg(not(before))]
    None
}

/// The model, which all others are held to.
pub fn yardstick() -> impl Contestant {
    of_model::Model
}

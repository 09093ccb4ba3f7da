//! A way to the library. The cases do not know which one they go.

use crate::calls::Call;

/// What makes the library's calls.
pub trait Library {
    /// The name of the test program that goes this way.
    const TEST: &'static str;

    /// Cases of a test of share 1 where `CASES` does not say otherwise.
    const CASES: u64;

    /// Opens the way.
    fn start() -> Self;

    /// Makes a call, and tells what it leaves.
    fn call<C: Call>(&mut self, call: &C) -> C::Left;
}

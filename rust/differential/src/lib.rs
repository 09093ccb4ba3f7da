//! Compares the library with the model of document 01, call by call: what a call leaves (answer, state, buffers)
//! must equal what the model says, octet for octet. There are two ways to the library:
//!
//! - [`server`]: the archive for x86-64, called in C by a process, `c/serve.c`, which `tools/serve` starts, in an
//!   emulator where one is needed. Each number that crosses to C is compared as it is.
//! - [`linked`]: the archive for this machine's processor, called through the wrapper `delampuk`. Most of the time
//!   goes to the model then, and more cases can be tried.
//!
//! Cases are drawn from a seed. `SEED` chooses another one, `CASES` how many cases are tried, and `CASE` a single
//! one of them, as a difference prints it. The call that a difference prints is not the drawn one, but a
//! [`smaller`] one that differs too.

pub mod calls;
pub mod cases;
pub mod draw;
pub mod library;
pub mod linked;
pub mod server;
pub mod smaller;
pub mod states;

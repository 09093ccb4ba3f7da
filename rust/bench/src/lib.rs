//! The speed of the library beside that of other implementations of document 01.
//!
//! Every contestant answers the same calls over the same plain structs, those of `include/delampuk.h`, and is held
//! to the model on the very inputs that are timed. What is printed are ratios from one run, so that they can be
//! compared between machines; a time by itself cannot.
//!
//! Without the feature `contestants` the library has the model alone beside it.

pub mod before;
pub mod check;
pub mod clock;
pub mod contestants;
pub mod forms;
pub mod inputs;
pub mod measure;
#[cfg(feature = "contestants")]
pub mod plain;
pub mod recordings;
pub mod table;
pub mod targets;

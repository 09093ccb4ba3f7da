//! Whether a stream is a terminal. The standard library tells it from Rust 1.70 on; this crate builds with 1.63.
#![allow(unsafe_code)]

use std::os::raw::c_int;

/// Standard output.
pub const OUTPUT: c_int = 1;

/// Standard error.
pub const ERROR: c_int = 2;

extern "C" {
    fn isatty(descriptor: c_int) -> c_int;
}

/// Whether a descriptor is a terminal.
pub fn is_terminal(descriptor: c_int) -> bool {
    // SAFETY: the call takes a number, of which any will do, and touches no memory.
    unsafe { isatty(descriptor) == 1 }
}

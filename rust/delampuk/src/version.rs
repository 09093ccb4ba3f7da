//! The version of the linked archive.

use std::fmt;

use crate::ffi;

/// A version of the library.
#[derive(Clone, Copy, Debug, PartialEq, Eq, PartialOrd, Ord, Hash)]
pub struct Version {
    /// The first number.
    pub major: u32,
    /// The second.
    pub minor: u32,
    /// The third.
    pub patch: u32,
}

impl Version {
    pub(crate) fn from_number(number: u32) -> Version {
        Version { major: number / 10_000, minor: number / 100 % 100, patch: number % 100 }
    }
}

impl fmt::Display for Version {
    fn fmt(&self, out: &mut fmt::Formatter) -> fmt::Result {
        let Version { major, minor, patch } = self;
        write!(out, "{major}.{minor}.{patch}")
    }
}

/// The version of the linked archive. It is this crate's, for where it is another one this panics, as every call does but
/// [`fits`].
pub fn version() -> Version {
    Version::from_number(ffi::about().version)
}

/// Whether the linked archive is of this crate's version. Where it is not, its structs and calls may be other ones.
pub fn fits() -> bool {
    ffi::fits(delampuk_sys::VERSION)
}

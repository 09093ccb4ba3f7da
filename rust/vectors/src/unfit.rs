//! Cases that cannot be run.

use std::fmt;

/// Why a case cannot be run: it has not the form of its kind, or it is about more than there is today.
#[derive(Clone, Debug, PartialEq, Eq)]
pub struct Unfit(pub String);

impl fmt::Display for Unfit {
    fn fmt(&self, out: &mut fmt::Formatter) -> fmt::Result {
        out.write_str(&self.0)
    }
}

//! `ours`: the proved library, out of its archive.

use super::in_c::InC;
use delampuk_sys::{delampuk_list, delampuk_read, delampuk_search, delampuk_send};

/// The calls of this contestant.
pub const CALLS: InC =
    InC { name: "ours", send: delampuk_send, read: delampuk_read, search: delampuk_search, list: delampuk_list };

//! `before`: the library out of an earlier archive, whose names `build.rs` has given a prefix.

use super::in_c::calls;

calls!("before", before_delampuk_send, before_delampuk_read, before_delampuk_search, before_delampuk_list);

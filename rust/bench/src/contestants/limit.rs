//! `limit`: C tuned by hand, eight octets at a time (`bench/limit.c`).

use super::in_c::calls;

calls!("limit", limit_send, limit_read, limit_search, limit_list);

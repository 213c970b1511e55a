//! Bounds on what people write, and on what is lent.

use crate::forms::Number;

pub const STREAMS: usize = 4;
pub const COLUMNS: usize = 6;
pub const ROWS: usize = 128;
pub const GRANTS: usize = 24;
pub const FORMS: usize = 12;
pub const DEPTH: usize = 8;
pub const LINE: usize = 512;
pub const NAME: usize = 8;
pub const ROLES: usize = 4;
pub const ENTRIES: usize = 4;
pub const ROUTES: usize = 16;
pub const OF: usize = 2;
/// How many times its offset a window may be long.
pub const OVERLAP: Number = 64;
pub const LAST_TIME: Number = 2_147_483_647;
/// What the script program lends to an `ask` and to a `line`.
pub const CELLS: usize = 4096;
pub const LINE_BYTES: usize = 4096;

pub fn is_time(number: Number) -> bool {
    (0..=LAST_TIME).contains(&number)
}

pub fn is_value(number: Number) -> bool {
    i32::try_from(number).is_ok()
}

//! The limits of what is accepted.
pub const ROWS: usize = 2048;
/// That can be lent over the pipe; here any number may be.
pub const LENT_ROWS: usize = 2048;
pub const DEPTH: usize = 64;
/// That exist before the walk.
pub const GLOBALS: usize = 1000000;
/// Files are numbered below this.
pub const FILES: usize = 262144;
pub const NAMES: usize = 1024;
/// Of the whole name list, with its ends.
pub const LIST_BYTES: usize = 32768;
/// Of one name.
pub const NAME_BYTES: usize = 255;

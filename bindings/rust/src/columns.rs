//! The columns of a sheet row.
pub const KIND: usize = 0;
pub const NEXT: usize = 1;
pub const CHILD: usize = 2;
pub const FILE: usize = 3;
pub const LINE: usize = 4;
pub const COLUMN: usize = 5;
pub const A: usize = 6;
pub const B: usize = 7;

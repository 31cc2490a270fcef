//! The kinds of files, by the number that a caller gives them.

pub const ACO: u32 = 0;
pub const ASE: u32 = 1;
pub const ACB: u32 = 2;
pub const DESCRIPTOR: u32 = 3;

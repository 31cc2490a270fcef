//! Which ink station a colour goes to, as a record says it.

pub const GLOBAL: u32 = 0;
pub const SPOT: u32 = 1;
pub const NORMAL: u32 = 2;
pub const PROCESS: u32 = 3;
pub const NOT_STATED: u32 = 4;

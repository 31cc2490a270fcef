//! The fixed measures of the layout.

pub const SIGNATURE: [u8; 4] = *b"ASEF";
pub const MAJOR_VERSION: u16 = 1;
pub const MINOR_VERSION: u16 = 0;

/// The signature, two versions of 16 bits, and the block count of 32.
pub const HEAD_LEN: usize = 12;
pub const MAJOR_PLACE: usize = 4;
pub const MINOR_PLACE: usize = 6;
pub const COUNT_PLACE: usize = 8;

/// A block's type and the length of its payload stand before the payload.
pub const ENVELOPE_LEN: usize = 6;
/// Where the length stands in a block.
pub const LENGTH_OFFSET: usize = 2;

pub const GROUP_START: u16 = 0xC001;
pub const GROUP_END: u16 = 0xC002;
pub const COLOUR: u16 = 0x0001;

/// The most groups that stand open.
pub const MAX_OPEN: usize = 16;

pub const NAME_COUNT_LEN: usize = 2;
pub const MODEL_LEN: usize = 4;
pub const CHANNEL_LEN: usize = 4;
/// The most channels that a model has.
pub const CHANNELS: usize = 4;
pub const INK_LEN: usize = 2;

/// The numbers that stand for a block in a table or in records to be written:
/// its type, its name's place and units, the model, four channels and the ink.
pub const ROW_LEN: usize = 9;

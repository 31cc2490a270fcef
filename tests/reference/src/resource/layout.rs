//! The fixed measures of the layout.

/// Every block begins with it.
pub const SIGNATURE: [u8; 4] = *b"8BIM";

/// A name's length is one byte.
pub const MAX_NAME: u32 = u8::MAX as u32;
pub const NAME_LENGTH_LEN: usize = 1;

/// A block without name and data: its signature, its ID, a length byte with its
/// pad, and its size.
pub const BARE_BLOCK_LEN: usize = 12;

/// The numbers that stand for a block in a table or in records to be written:
/// its ID, and the place and length of its name's text and of its data.
pub const ROW_LEN: usize = 5;

/// What makes so many bytes even: a pad byte, or none.
#[inline(always)]
pub fn pad_len(len: usize) -> usize {
    len % 2
}

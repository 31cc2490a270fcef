//! The fixed measures of the layout.

pub const SIGNATURE: [u8; 4] = *b"8BCB";
pub const VERSION: u16 = 1;

/// A string is a count of units in 32 bits, and the units.
pub const COUNT_LEN: usize = 4;
/// The title, the prefix, the suffix and the description.
pub const STRINGS: usize = 4;

/// The signature, the version and the identifier, four counts of strings, and
/// then the colour count, the page size, the page offset and the space.
pub const BARE_HEAD_LEN: usize = 8 + STRINGS * COUNT_LEN + 8;

pub const RGB: u16 = 0;
pub const CMYK: u16 = 2;
pub const LAB: u16 = 7;

/// The colour count has 16 bits.
pub const MAX_COLOURS: usize = u16::MAX as usize;

pub const CODE_LEN: usize = 6;
/// The most components that a space has, of a byte each.
pub const COMPONENTS: usize = 4;

pub const TAG_LEN: usize = 8;

/// The numbers that stand for a colour in a table or in records to be written:
/// its name's place and units, six code bytes, four components and the ink.
pub const ROW_LEN: usize = 2 + CODE_LEN + COMPONENTS + 1;

/// How many components a space has; no answer for an unknown one.
#[inline(always)]
pub fn component_count(space: u16) -> Option<usize> {
    match space {
        RGB | LAB => Some(3),
        CMYK => Some(4),
        _ => None,
    }
}

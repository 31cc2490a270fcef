//! The models of ASE, each by the number that its tag's four bytes are.

pub const RGB: u32 = u32::from_be_bytes(*b"RGB ");
pub const CMYK: u32 = u32::from_be_bytes(*b"CMYK");
pub const LAB: u32 = u32::from_be_bytes(*b"LAB ");
pub const GRAY: u32 = u32::from_be_bytes(*b"Gray");

/// How many channels a model has; no answer for an unknown one.
#[inline(always)]
pub fn channel_count(model: u32) -> Option<usize> {
    match model {
        RGB | LAB => Some(3),
        CMYK => Some(4),
        GRAY => Some(1),
        _ => None,
    }
}

/// Whether a channel of a model may have these bits. Minus zero is equal to
/// zero; a NaN is in no range.
#[inline(always)]
pub fn is_in_range(model: u32, bits: u32) -> bool {
    let channel = f32::from_bits(bits);
    if model == LAB {
        channel.is_finite()
    } else {
        (0.0..=1.0).contains(&channel)
    }
}

//! A sample of an ACO space as a channel of an ASE model, and back.
//!
//! Every refusal here is at place 0, so its number says it all.

use crate::colour::{CMYK, GRAY, HSB, LAB, RGB, SHORT_SCALE};
use crate::model;
use crate::refusal::number;

/// The samples that stand for a channel of 1: of RGB and CMYK, and of gray.
const FULL: u16 = u16::MAX;
const GRAY_FULL: u16 = SHORT_SCALE;

/// The channel for a sample of a space.
#[inline]
pub fn to_channel(space: u16, sample: u16) -> Result<f32, u32> {
    match space {
        RGB => Ok(quotient(sample, FULL)),
        // ACO counts 0 as full ink.
        CMYK => Ok(quotient(FULL - sample, FULL)),
        GRAY if sample > GRAY_FULL => Err(number::OUT_OF_RANGE),
        GRAY => Ok(quotient(sample, GRAY_FULL)),
        HSB | LAB => Err(number::NO_COUNTERPART),
        _ => Err(number::UNKNOWN_SPACE),
    }
}

/// The sample for a channel of a model, which is given by the number that its
/// tag's four bytes are. The channel is given by its bits.
#[inline]
pub fn to_sample(model: u32, bits: u32) -> Result<u16, u32> {
    let channel = f32::from_bits(bits);
    match model {
        model::RGB => nearest(channel, FULL),
        model::GRAY => nearest(channel, GRAY_FULL),
        model::CMYK => nearest(channel, FULL).map(|sample| FULL - sample),
        model::LAB if channel.is_finite() => Err(number::NO_COUNTERPART),
        model::LAB => Err(number::OUT_OF_RANGE),
        _ => Err(number::UNKNOWN_MODEL),
    }
}

/// One division in 32 bits. Both numbers have at most 16 bits, so each is an
/// f32 as it stands and only the quotient is rounded.
#[inline(always)]
fn quotient(sample: u16, full: u16) -> f32 {
    f32::from(sample) / f32::from(full)
}

/// The whole number nearest to the channel times the full scale, halves upward.
///
/// It is exact, though worked out in f64. The product: 24 bits of the channel
/// times at most 16 bits of the scale are at most 40 bits, an f64 holds 53, and
/// the least product, of 2^-149, is far above the least f64. The sum: where
/// the product is 2^-14 or more, its lowest bit is 2^-53 or more, and a sum
/// from a half to 1 holds bits down to 2^-53; above 1 the product's lowest bit
/// rises with the sum. Where the product is less, the sum may be rounded, but
/// it stays below 1 and gives 0, as it has to. The conversion cuts off the
/// fraction, which takes a sum that is not negative down to the whole number.
#[inline(always)]
fn nearest(channel: f32, full: u16) -> Result<u16, u32> {
    // A NaN is in no range; minus zero is equal to zero, and gives 0.
    if !(0.0..=1.0).contains(&channel) {
        return Err(number::OUT_OF_RANGE);
    }
    Ok((f64::from(channel) * f64::from(full) + 0.5) as u16)
}

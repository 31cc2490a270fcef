//! Conversions of RGB in plain floats: what a caller would write by hand.

const FULL: f32 = 65_535.0;

#[inline(always)]
pub fn divided(sample: u16) -> f32 {
    f32::from(sample) / FULL
}

/// Not exact: the product is rounded before the whole number is taken. Not
/// judged either: what is out of range is cut to 0 or 65,535, and a NaN is 0.
#[inline(always)]
pub fn rounded(channel: f32) -> u16 {
    (channel * FULL).round() as u16
}

/// Exact and judged.
#[inline(always)]
pub fn floored(channel: f32) -> Option<u16> {
    let sum = f64::from(channel) * f64::from(FULL) + 0.5;
    in_range(channel).then_some(sum.floor() as u16)
}

/// As `floored`; the conversion cuts off the fraction by itself, without the
/// call that `floor` is where the processor is not known to have it.
#[inline(always)]
pub fn cut_off(channel: f32) -> Option<u16> {
    let sum = f64::from(channel) * f64::from(FULL) + 0.5;
    in_range(channel).then_some(sum as u16)
}

/// A run of samples, one division each.
#[inline(never)]
pub fn divide_all(full: u16, samples: &[u16], bits: &mut [u32]) {
    let full = f32::from(full);
    for (bits, &sample) in bits.iter_mut().zip(samples) {
        *bits = (f32::from(sample) / full).to_bits();
    }
}

/// A run of channels, not judged: one product each, cut off.
#[inline(never)]
pub fn cut_off_all(full: u16, bits: &[u32], samples: &mut [u16]) {
    let full = f64::from(full);
    for (sample, &bits) in samples.iter_mut().zip(bits) {
        *sample = (f64::from(f32::from_bits(bits)) * full + 0.5) as u16;
    }
}

#[inline(always)]
fn in_range(channel: f32) -> bool {
    (0.0..=1.0).contains(&channel)
}

/// The same as calls, since the library's conversion cannot be but a call.
pub mod called {
    #[inline(never)]
    pub fn divided(sample: u16) -> f32 {
        super::divided(sample)
    }

    #[inline(never)]
    pub fn rounded(channel: f32) -> u16 {
        super::rounded(channel)
    }

    #[inline(never)]
    pub fn floored(channel: f32) -> Option<u16> {
        super::floored(channel)
    }

    #[inline(never)]
    pub fn cut_off(channel: f32) -> Option<u16> {
        super::cut_off(channel)
    }
}

//! The rules of samples and channels, each with its answer written out.

use generate::{CMYK_TAG, GRAY_TAG, LAB_TAG, ONE, PAIRS, RGB_TAG, TAGS};
use reference::{to_channel, to_channels, to_sample, to_samples};

const FULL: u32 = 65_535;
const GRAY_FULL: u32 = 10_000;
const HALF: u32 = 0x3F00_0000;
const MINUS_ZERO: u32 = 0x8000_0000;
const INFINITIES: [u32; 2] = [0x7F80_0000, 0xFF80_0000];
/// Quiet and signalling ones, of both signs, from the first to the last.
const NANS: [u32; 6] = [
    0x7F80_0001,
    0x7FC0_0000,
    0x7FFF_FFFF,
    0xFF80_0001,
    0xFFC0_0000,
    0xFFFF_FFFF,
];

#[test]
fn halves_go_up_before_cmyk_is_taken_away() {
    assert_eq!(to_sample(RGB_TAG, HALF), Ok(32_768));
    assert_eq!(to_sample(GRAY_TAG, HALF), Ok(5_000));
    // 2^-5 is 312.5 of 10,000.
    assert_eq!(to_sample(GRAY_TAG, 0x3D00_0000), Ok(313));
    assert_eq!(to_sample(CMYK_TAG, HALF), Ok(32_767));
}

#[test]
fn minus_zero_is_zero() {
    assert_eq!(to_sample(RGB_TAG, MINUS_ZERO), Ok(0));
    assert_eq!(to_sample(GRAY_TAG, MINUS_ZERO), Ok(0));
    assert_eq!(to_sample(CMYK_TAG, MINUS_ZERO), Ok(65_535));
}

#[test]
fn the_ends_of_the_samples_are_zero_and_one() {
    for (space, none, full) in [(0, 0, 65_535), (8, 0, 10_000), (2, 65_535, 0)] {
        assert_eq!(to_channel(space, none).map(f32::to_bits), Ok(0));
        assert_eq!(to_channel(space, full).map(f32::to_bits), Ok(ONE));
    }
}

#[test]
fn the_ends_of_the_range_go_by_bits() {
    for (_, tag, _) in PAIRS {
        for bits in [0, 1, 0x007F_FFFF, 0x0080_0000, ONE - 1, ONE, MINUS_ZERO] {
            assert!(to_sample(tag, bits).is_ok(), "{bits:08X}");
        }
        for bits in [ONE + 1, 0x7F7F_FFFF, MINUS_ZERO + 1, 0xBF80_0000] {
            assert_eq!(to_sample(tag, bits), Err(5), "{bits:08X}");
        }
        for bits in INFINITIES.into_iter().chain(NANS) {
            assert_eq!(to_sample(tag, bits), Err(5), "{bits:08X}");
        }
    }
}

#[test]
fn lab_is_refused_for_its_channel_and_then_for_itself() {
    for bits in INFINITIES.into_iter().chain(NANS) {
        assert_eq!(to_sample(LAB_TAG, bits), Err(5), "{bits:08X}");
    }
    for bits in [0, HALF, ONE + 1, 0x7F7F_FFFF, MINUS_ZERO + 1, 0xFF7F_FFFF] {
        assert_eq!(to_sample(LAB_TAG, bits), Err(14), "{bits:08X}");
    }
}

#[test]
fn an_unknown_model_is_refused_whatever_the_channel() {
    for tag in TAGS {
        for bit in 0..u32::BITS {
            for bits in [HALF, ONE + 1, INFINITIES[0], NANS[1]] {
                assert_eq!(to_sample(tag ^ 1 << bit, bits), Err(4));
            }
        }
    }
    for tag in [0, u32::MAX, RGB_TAG.swap_bytes(), CMYK_TAG.swap_bytes()] {
        assert_eq!(to_sample(tag, NANS[0]), Err(4));
    }
}

#[test]
fn each_space_has_its_answer() {
    for space in 0..=u16::MAX {
        let expected = match space {
            0 | 2 | 8 => None,
            1 | 7 => Some(14),
            _ => Some(4),
        };
        assert_eq!(to_channel(space, 1).err(), expected, "space {space}");
    }
}

#[test]
fn gray_above_its_scale_is_out_of_range_and_lab_has_no_counterpart() {
    for sample in 10_001..=u16::MAX {
        assert_eq!(to_channel(8, sample), Err(5), "sample {sample}");
    }
    for sample in 0..=u16::MAX {
        assert_eq!(to_channel(7, sample), Err(14), "sample {sample}");
        assert_eq!(to_channel(1, sample), Err(14), "sample {sample}");
    }
}

#[test]
fn every_sample_comes_back() {
    for (space, tag, full) in PAIRS {
        for sample in 0..=full {
            let channel = to_channel(space, sample).unwrap();
            assert_eq!(to_sample(tag, channel.to_bits()), Ok(sample));
        }
    }
}

/// A channel from 0 to 1, minus zero aside, as a whole number over a power of
/// two, which is given by its exponent.
fn fraction(bits: u32) -> (u128, u32) {
    let (exponent, rest) = (bits >> 23, bits & 0x007F_FFFF);
    match exponent {
        0 => (u128::from(rest), 149),
        _ => (u128::from(rest | 0x0080_0000), 150 - exponent),
    }
}

/// The quotient is the nearest float: it is off by no more than half of its
/// last bit, over the common denominator of both. No sample is just between
/// two floats, since 65,535 is odd.
#[test]
fn every_channel_is_the_nearest_float() {
    for sample in 1..=u16::MAX {
        let bits = to_channel(0, sample).unwrap().to_bits();
        let (over, exponent) = fraction(bits);
        let off = (over * u128::from(FULL)).abs_diff(u128::from(sample) << exponent);
        assert!(2 * off <= u128::from(FULL), "sample {sample}");
    }
}

/// Twice the full scale times the channel is from twice the sample less 1 up
/// to, and without, twice the sample and 1. Over whole numbers.
fn is_nearest(bits: u32, full: u32, sample: u16) -> bool {
    let (over, exponent) = fraction(bits);
    let doubled = over * 2 * u128::from(full);
    if exponent > 64 {
        // Twice the scale times the channel is below 1, for `doubled` is below 2^41.
        return sample == 0;
    }
    let sample = u128::from(sample);
    doubled < (2 * sample + 1) << exponent && doubled + (1 << exponent) >= (2 * sample) << exponent
}

fn check_nearest(bits: u32) {
    let sample = to_sample(RGB_TAG, bits).unwrap();
    assert!(is_nearest(bits, FULL, sample), "{bits:08X} gives {sample}");
    assert_eq!(to_sample(CMYK_TAG, bits), Ok(65_535 - sample));
    let gray = to_sample(GRAY_TAG, bits).unwrap();
    assert!(is_nearest(bits, GRAY_FULL, gray), "{bits:08X} gives {gray}");
}

#[test]
fn about_every_half_the_sample_is_the_nearest() {
    for full in [FULL, GRAY_FULL] {
        for sample in 0..full {
            let half = (f64::from(2 * sample + 1) / f64::from(2 * full)) as f32;
            (half.to_bits() - 3..=half.to_bits() + 3).for_each(check_nearest);
        }
    }
}

#[test]
fn all_over_the_range_the_sample_is_the_nearest() {
    const STEP: usize = 1_009;
    (0..=ONE).step_by(STEP).for_each(check_nearest);
    (0..1_000).for_each(check_nearest);
    (ONE - 1_000..=ONE).for_each(check_nearest);
}

#[test]
fn runs_are_their_elements_in_order() {
    let samples = [0, 1, 32_768, 65_535];
    let mut bits = [7; 5];
    assert_eq!(to_channels(2, &samples, &mut bits), Ok(()));
    for (&sample, &bits) in samples.iter().zip(&bits) {
        assert_eq!(to_channel(2, sample).map(f32::to_bits), Ok(bits));
    }
    assert_eq!(bits[4], 7);
    let mut back = [9; 4];
    assert_eq!(to_samples(CMYK_TAG, &bits[..4], &mut back), Ok(()));
    assert_eq!(back, samples);
}

#[test]
fn runs_give_their_first_refusal_and_store_nothing() {
    let refused = |result: Result<(), reference::Refusal>| {
        result.map_err(|refusal| (refusal.number, refusal.place))
    };
    let mut bits = [7; 3];
    let high = [0, 10_001, 65_535];
    assert_eq!(refused(to_channels(8, &high, &mut bits)), Err((5, 1)));
    assert_eq!(refused(to_channels(8, &high, &mut [])), Err((5, 1)));
    assert_eq!(refused(to_channels(8, &high[..1], &mut [])), Err((11, 0)));
    assert_eq!(refused(to_channels(7, &high, &mut bits)), Err((14, 0)));
    assert_eq!(refused(to_channels(9, &[], &mut [])), Ok(()));
    assert_eq!(bits, [7; 3]);
    let mut samples = [7; 2];
    let channels = [HALF, NANS[0]];
    assert_eq!(
        refused(to_samples(RGB_TAG, &channels, &mut samples)),
        Err((5, 1))
    );
    assert_eq!(
        refused(to_samples(LAB_TAG, &channels, &mut samples)),
        Err((14, 0))
    );
    assert_eq!(refused(to_samples(0, &channels, &mut [])), Err((4, 0)));
    assert_eq!(samples, [7; 2]);
}

//! Model tags and bit patterns of channels.

use crate::palette::SPACES;
use crate::random::Random;
use std::ops::RangeInclusive;

pub const RGB_TAG: u32 = u32::from_be_bytes(*b"RGB ");
pub const CMYK_TAG: u32 = u32::from_be_bytes(*b"CMYK");
pub const LAB_TAG: u32 = u32::from_be_bytes(*b"LAB ");
pub const GRAY_TAG: u32 = u32::from_be_bytes(*b"Gray");

pub const TAGS: [u32; 4] = [RGB_TAG, CMYK_TAG, LAB_TAG, GRAY_TAG];

/// The spaces that have a counterpart, each with its model's tag and its
/// largest sample.
pub const PAIRS: [(u16, u32, u16); 3] = [
    (0, RGB_TAG, 65_535),
    (2, CMYK_TAG, 65_535),
    (8, GRAY_TAG, 10_000),
];

/// The bits of the channel 1.
pub const ONE: u32 = 0x3F80_0000;
/// The bits of 2^-17: below it every channel is nearest to the sample 0.
const LEAST_HALF: u32 = 0x3700_0000;
const SCALES: [u32; 2] = [65_535, 10_000];

const ANY_TAGS: usize = 4_000;

/// Where the answer changes by the bits: zero, 1, infinity, and their negatives.
const TURNS: [u32; 6] = [
    0x0000_0000,
    0x8000_0000,
    ONE,
    0x7F80_0000,
    0xFF80_0000,
    0xBF80_0000,
];
/// How many patterns on each side of a turn, of the first one of an exponent,
/// and of a sample's channel or a half.
const ABOUT_A_TURN: u32 = 50_000;
const ABOUT_AN_EXPONENT: u32 = 500;
const ABOUT_A_SAMPLE: u32 = 100;

/// Bit patterns of every class, those at its ends among them.
pub const EACH_CLASS: [u32; 34] = [
    // Zero and minus zero.
    0x0000_0000,
    0x8000_0000,
    // Subnormal.
    0x0000_0001,
    0x0040_0000,
    0x007F_FFFF,
    // Ordinary, up to 1.
    0x0080_0000,
    0x1234_5678,
    0x3700_0000,
    0x3700_0080,
    0x3780_0080,
    0x3DCC_CCCD,
    0x3F00_0000,
    0x3F00_0001,
    0x3F7F_FFFF,
    0x3F80_0000,
    // Above 1.
    0x3F80_0001,
    0x4000_0000,
    0x42C8_0000,
    0x7F7F_FFFF,
    // Negative, subnormal and ordinary.
    0x8000_0001,
    0x807F_FFFF,
    0x8080_0000,
    0xBF00_0000,
    0xBF80_0000,
    0xFF7F_FFFF,
    // Infinite.
    0x7F80_0000,
    0xFF80_0000,
    // Quiet NaNs.
    0x7FC0_0000,
    0x7FFF_FFFF,
    0xFFC0_0000,
    0xFFFF_FFFF,
    // Signalling NaNs.
    0x7F80_0001,
    0x7FBF_FFFF,
    0xFF80_0001,
];

/// The known tags, those that are nearly one, and any others.
pub fn tags(random: &mut Random) -> Vec<u32> {
    let mut tags = vec![0, u32::MAX];
    tags.extend(SPACES.map(|(space, _)| u32::from(space)));
    for tag in TAGS {
        tags.push(tag);
        tags.extend(one_byte_off(tag));
        tags.extend(in_other_cases(tag));
        tags.extend(in_other_orders(tag));
    }
    tags.extend((0..ANY_TAGS).map(|_| random.u32()));
    tags
}

/// Each byte at each of its other values, those that are one bit off with them.
fn one_byte_off(tag: u32) -> impl Iterator<Item = u32> {
    (0..4).flat_map(move |place| (1..=0xFF).map(move |mask| tag ^ mask << (8 * place)))
}

/// Each choice of the letters in the other case.
fn in_other_cases(tag: u32) -> impl Iterator<Item = u32> {
    (1..1 << 4).map(move |chosen| {
        let mut bytes = tag.to_be_bytes();
        for (place, byte) in bytes.iter_mut().enumerate() {
            if chosen >> place & 1 == 1 && byte.is_ascii_alphabetic() {
                *byte ^= 0x20;
            }
        }
        u32::from_be_bytes(bytes)
    })
}

/// The bytes turned round, in the whole and in each half, and moved in a ring.
fn in_other_orders(tag: u32) -> [u32; 5] {
    let turned = tag.swap_bytes();
    [
        turned,
        turned.rotate_left(16),
        tag.rotate_left(8),
        tag.rotate_left(16),
        tag.rotate_left(24),
    ]
}

/// The patterns about each turn, about the first one of each sign and exponent,
/// and about the channel of each sample and each half between two samples of
/// either scale. They are in order and none comes twice.
pub fn neighbourhoods() -> Vec<RangeInclusive<u32>> {
    let mut found = vec![about(u32::MAX, ABOUT_AN_EXPONENT)];
    found.extend(TURNS.map(|bits| about(bits, ABOUT_A_TURN)));
    found.extend((0..1 << 9).map(|exponent| about(exponent << 23, ABOUT_AN_EXPONENT)));
    for full in SCALES {
        let halves = 0..=2 * full + 1;
        found.extend(halves.map(|halves| about(channel(halves, full), ABOUT_A_SAMPLE)));
    }
    merged(found)
}

fn about(bits: u32, reach: u32) -> RangeInclusive<u32> {
    bits.saturating_sub(reach)..=bits.saturating_add(reach)
}

/// The bits of the channel of so many half samples, or of a float beside it.
fn channel(halves: u32, full: u32) -> u32 {
    ((f64::from(halves) / f64::from(2 * full)) as f32).to_bits()
}

fn merged(mut ranges: Vec<RangeInclusive<u32>>) -> Vec<RangeInclusive<u32>> {
    ranges.sort_by_key(|range| *range.start());
    let mut merged: Vec<RangeInclusive<u32>> = Vec::new();
    for range in ranges {
        match merged.last_mut() {
            Some(last) if range.start() <= last.end() => {
                *last = *last.start()..=*last.end().max(range.end());
            }
            _ => merged.push(range),
        }
    }
    merged
}

/// Any pattern at all, any from 0 to 1, or any that a sample other than 0 may
/// be nearest to, as often as each other.
pub fn any_pattern(random: &mut Random) -> u32 {
    let (least, most) = random.pick(&[(0, u32::MAX), (0, ONE), (LEAST_HALF, ONE)]);
    least + random.below((most - least) as usize + 1) as u32
}

//! The fixed measures of the layout, and a colour's five fields.

use crate::refusal::number;
use std::ops::RangeInclusive;

/// A list begins with its version and its count, 16 bits each.
pub const HEAD_LEN: usize = 4;
/// A colour is its space and its samples, 16 bits each.
pub const COLOUR_LEN: usize = 10;
pub const FIELD_LEN: usize = 2;
pub const FIELDS: usize = 5;
pub const SAMPLES: usize = 4;
pub const NAME_COUNT_LEN: usize = 4;
pub const MAX_COLOURS: usize = 4096;

pub const VERSION_ONE: u16 = 1;
pub const VERSION_TWO: u16 = 2;

pub const RGB: u16 = 0;
pub const HSB: u16 = 1;
pub const CMYK: u16 = 2;
pub const LAB: u16 = 7;
pub const GRAY: u16 = 8;

pub const fn is_known(space: u16) -> bool {
    matches!(space, RGB | HSB | CMYK | LAB | GRAY)
}

/// The largest sample of gray, and of Lab's lightness.
pub const SHORT_SCALE: u16 = 10_000;
/// Lab's two chrominances have a sign; a file has their 16 bits.
const CHROMINANCES: RangeInclusive<i16> = -12_800..=12_700;

/// Whether a sample of a known space may have this value, by its position from 0.
pub fn is_in_range(space: u16, index: usize, sample: u16) -> bool {
    match (space, index) {
        (GRAY | LAB, 0) => sample <= SHORT_SCALE,
        (LAB, 1 | 2) => CHROMINANCES.contains(&(sample as i16)),
        (RGB | HSB, 0..=2) | (CMYK, 0..=3) => true,
        _ => sample == 0,
    }
}

/// The 16-bit field at `place`, where all of it is there.
#[inline(always)]
pub fn field_at(bytes: &[u8], place: usize) -> Option<u16> {
    let field = bytes.get(place..)?.first_chunk()?;
    Some(u16::from_be_bytes(*field))
}

/// A fault of a colour: its number, and its place from the colour's first byte.
pub struct ColourFault {
    pub number: u32,
    pub offset: usize,
}

/// The first fault of a list 1 colour. `bytes` may end before the colour does;
/// the space is judged before the samples are looked for.
pub fn judge_colour(bytes: &[u8]) -> Result<(), ColourFault> {
    let fault = |number, offset| Err(ColourFault { number, offset });
    let Some(space) = field_at(bytes, 0) else {
        return fault(number::CUT, 0);
    };
    if !is_known(space) {
        return fault(number::UNKNOWN_SPACE, 0);
    }
    for index in 0..SAMPLES {
        let offset = (1 + index) * FIELD_LEN;
        match field_at(bytes, offset) {
            None => return fault(number::CUT, offset),
            Some(sample) if !is_in_range(space, index, sample) => {
                return fault(number::OUT_OF_RANGE, offset)
            }
            Some(_) => {}
        }
    }
    Ok(())
}

/// The spaces below this number are looked up; all from there on are unknown.
const LOOKED_UP: usize = 16;

/// For each sample what is added to it, round 16 bits, and the most that it may
/// then be.
#[derive(Clone, Copy)]
struct Space {
    added: [u16; SAMPLES],
    most: [u16; SAMPLES],
    known: bool,
}

impl Space {
    const UNKNOWN: Space = Space {
        added: [0; SAMPLES],
        most: [0; SAMPLES],
        known: false,
    };

    const fn of(added: [u16; SAMPLES], most: [u16; SAMPLES]) -> Space {
        Space {
            added,
            most,
            known: true,
        }
    }
}

const SPACES: [Space; LOOKED_UP] = looked_up();

const fn looked_up() -> [Space; LOOKED_UP] {
    const ALL: u16 = u16::MAX;
    const FULL: u16 = SHORT_SCALE;
    // With 12,800 added, chrominances count from 0.
    const LOW: u16 = 12_800;
    const HIGH: u16 = 12_700 + LOW;
    let mut spaces = [Space::UNKNOWN; LOOKED_UP];
    spaces[RGB as usize] = Space::of([0; SAMPLES], [ALL, ALL, ALL, 0]);
    spaces[HSB as usize] = Space::of([0; SAMPLES], [ALL, ALL, ALL, 0]);
    spaces[CMYK as usize] = Space::of([0; SAMPLES], [ALL; SAMPLES]);
    spaces[LAB as usize] = Space::of([0, LOW, LOW, 0], [FULL, HIGH, HIGH, 0]);
    spaces[GRAY as usize] = Space::of([0; SAMPLES], [FULL, 0, 0, 0]);
    spaces
}

/// Whether a whole colour has no fault; the same as `judge_colour`, without a
/// branch that depends on the space.
#[inline(always)]
pub fn is_sound(colour: &[u8; COLOUR_LEN]) -> bool {
    let [space, samples @ ..] = fields(colour);
    let space = usize::from(space);
    let looked_up = &SPACES[space.min(LOOKED_UP - 1)];
    let mut sound = looked_up.known;
    for (index, sample) in samples.into_iter().enumerate() {
        sound &= sample.wrapping_add(looked_up.added[index]) <= looked_up.most[index];
    }
    sound
}

#[inline(always)]
fn fields(colour: &[u8; COLOUR_LEN]) -> [u16; FIELDS] {
    let (fields, _) = colour.as_chunks::<FIELD_LEN>();
    [0, 1, 2, 3, 4].map(|index| u16::from_be_bytes(fields[index]))
}

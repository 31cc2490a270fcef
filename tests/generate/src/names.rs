//! Names that a record gives by their place in a text and their units, side by
//! side in its numbers.

use crate::random::Random;

/// More units than a name made here has, damage aside.
const LONG_NAME: u32 = 1 << 20;

/// Text without a zero byte save now and then one that no name reads as half
/// of a zero unit: its neighbours are not zero.
pub fn any_text(random: &mut Random, len: usize) -> Vec<u8> {
    let mut text: Vec<u8> = (0..len).map(|_| random.byte().max(1)).collect();
    for place in (0..len).step_by(3) {
        if random.one_in(4) {
            text[place] = 0;
        }
    }
    text
}

/// A name that lies in the text, at an odd place too, and may share its units.
pub fn any_name(text: &[u8], random: &mut Random) -> (usize, usize) {
    let units = random.below(10.min(text.len() / 2) + 1);
    let place = random.below(text.len() - 2 * units + 1);
    (place, units)
}

/// A name whose last byte, or last unit, is the first past the text.
pub fn just_past(name: &mut [u32], text_len: usize, random: &mut Random) {
    let [place, units] = place_and_units(name);
    let past = text_len as u32 + 1 + random.below(2) as u32;
    // Another damage may have made the name far longer than any text here.
    *units = (*units).clamp(1, LONG_NAME);
    *place = past.saturating_sub(2 * *units);
}

/// A place so far on that adding the name's length to it passes 32 bits.
pub fn far_past(name: &mut [u32], random: &mut Random) {
    let [place, units] = place_and_units(name);
    *units = (*units).max(1);
    *place = u32::MAX - random.below(2 * *units as usize + 2) as u32;
}

pub fn zero_unit(name: &mut [u32], text: &mut [u8], random: &mut Random) {
    let [place, units] = place_and_units(name);
    if *units > 0 {
        let unit = random.below((*units).min(LONG_NAME) as usize);
        let start = *place as usize + 2 * unit;
        if let Some(unit) = text.get_mut(start..start + 2) {
            unit.fill(0);
        }
    }
}

/// Not a fault: a name of no units may give any place.
pub fn empty_anywhere(name: &mut [u32], random: &mut Random) {
    let [place, units] = place_and_units(name);
    *place = random.u32();
    *units = 0;
}

fn place_and_units(name: &mut [u32]) -> &mut [u32; 2] {
    name.try_into().expect("a name is two numbers")
}

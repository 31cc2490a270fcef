//! Names and units as UTF-8, by the standard library's own decoding of UTF-16 and
//! encoding of characters.

use crate::name::UNIT_LEN;
use crate::refusal::number;
use crate::LIMIT;

/// The most bytes that a unit becomes.
const MOST: usize = 3;

/// How many bytes a name at a place of a file has in UTF-8, or the refusal.
pub fn name_utf8_length(file: &[u8], place: usize, units: usize) -> Result<usize, u32> {
    Ok(measure(big_endian(name_in(file, place, units)?)))
}

/// The name in UTF-8 in `out`, and how many bytes it has.
pub fn name_utf8(file: &[u8], place: usize, units: usize, out: &mut [u8]) -> Result<usize, u32> {
    let name = name_in(file, place, units)?;
    put(big_endian(name), units, out)
}

/// The same of units that are numbers.
pub fn utf8_length(units: &[u16]) -> Result<usize, u32> {
    within(units)?;
    Ok(measure(units.iter().copied()))
}

/// The same of units that are numbers.
pub fn utf8(units: &[u16], out: &mut [u8]) -> Result<usize, u32> {
    within(units)?;
    put(units.iter().copied(), units.len(), out)
}

fn within(units: &[u16]) -> Result<(), u32> {
    if units.len() > LIMIT / UNIT_LEN {
        return Err(number::TOO_LONG);
    }
    Ok(())
}

/// The bytes of a name of a file. One of no units is in any file, whatever its place.
fn name_in(file: &[u8], place: usize, units: usize) -> Result<&[u8], u32> {
    if file.len() > LIMIT {
        return Err(number::TOO_LONG);
    }
    if units == 0 {
        return Ok(&[]);
    }
    let len = units.checked_mul(UNIT_LEN);
    let rest = file.get(place..);
    let name = rest.and_then(|rest| rest.get(..len?));
    name.ok_or(number::CUT)
}

fn big_endian(name: &[u8]) -> impl Iterator<Item = u16> + Clone + '_ {
    name.chunks_exact(UNIT_LEN)
        .map(|unit| u16::from_be_bytes([unit[0], unit[1]]))
}

fn characters(units: impl Iterator<Item = u16>) -> impl Iterator<Item = char> {
    char::decode_utf16(units).map(|c| c.unwrap_or(char::REPLACEMENT_CHARACTER))
}

fn measure(units: impl Iterator<Item = u16>) -> usize {
    characters(units).map(char::len_utf8).sum()
}

/// Where the room is enough for any units it need not be measured first.
#[inline(always)]
fn put(
    units: impl Iterator<Item = u16> + Clone,
    count: usize,
    out: &mut [u8],
) -> Result<usize, u32> {
    if out.len() < MOST * count && out.len() < measure(units.clone()) {
        return Err(number::NO_ROOM);
    }
    let mut end = 0;
    for c in characters(units) {
        end += c.encode_utf8(&mut out[end..]).len();
    }
    Ok(end)
}

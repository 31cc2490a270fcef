//! Names: units of 16 bits, closed by a zero unit.

pub const UNIT_LEN: usize = 2;

const BLOCK_LEN: usize = 64;

/// Whether a name's body, which has a unit at least, ends with the only zero
/// unit in it.
#[inline(always)]
pub fn is_closed(body: &[u8]) -> bool {
    let (units, closing) = body.split_at(body.len() - UNIT_LEN);
    closing == [0; UNIT_LEN] && !holds_zero_unit(units)
}

/// Whether one of the units is zero. Whole blocks are gone through without a
/// branch, so that the compiler can take many units at once.
pub fn holds_zero_unit(units: &[u8]) -> bool {
    let (blocks, rest) = units.as_chunks::<BLOCK_LEN>();
    blocks.iter().any(|block| any_zero(block)) || any_zero(rest)
}

#[inline(always)]
fn any_zero(units: &[u8]) -> bool {
    let (units, _) = units.as_chunks::<UNIT_LEN>();
    units.iter().fold(false, |found, unit| {
        found | (u16::from_ne_bytes(*unit) == 0)
    })
}

/// The bytes of so many units, in 64 bits, where twice any 32-bit count fits.
pub fn bytes_of(units: u32) -> u64 {
    UNIT_LEN as u64 * u64::from(units)
}

/// The units that a record gives by their place in a text, where it holds them
/// all. A name of no units is in any text, whatever its place.
#[inline(always)]
pub fn units_in(text: &[u8], place: u32, units: u32) -> Option<&[u8]> {
    if units == 0 {
        return Some(&[]);
    }
    let start = u64::from(place);
    let end = start + bytes_of(units);
    if end > text.len() as u64 {
        return None;
    }
    Some(&text[start as usize..end as usize])
}

/// The same where the place is any number at all, as a header gives it.
#[inline(always)]
pub fn units_within(text: &[u8], place: usize, units: u32) -> Option<&[u8]> {
    if units == 0 {
        return Some(&[]);
    }
    let len = usize::try_from(bytes_of(units)).ok()?;
    text.get(place..)?.get(..len)
}

/// A name as a listing shows it.
pub fn shown(units: &[u8]) -> String {
    if units.is_empty() {
        return "-".to_string();
    }
    units.iter().map(|byte| format!("{byte:02X}")).collect()
}

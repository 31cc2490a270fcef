//! A file with another value in one row.

use super::layout::{is_unit, item, DOUBLE_LEN};
use super::table::{rows_in, Table};
use crate::refusal::{number, Refusal};

const UNIT_LEN: usize = 4;

/// What is to stand in a row: its kind and unit by their four characters, the
/// unit being a unit double's alone, and the value's bits.
#[derive(Clone, Copy, Debug, PartialEq, Eq)]
pub struct Replacement {
    pub kind: u32,
    pub unit: u32,
    pub bits: u64,
}

/// Writes the file with that value in that row, and gives its length, which is
/// the file's. All refusals are at place 0, the file's own too. Nothing of `out`
/// changes on a refusal, nor past the length.
pub fn replace(
    file: &[u8],
    table: Table<'_>,
    row: usize,
    replacement: Replacement,
    out: &mut [u8],
) -> Result<usize, Refusal> {
    let rows = rows_in(file, table).map_err(|refusal| Refusal::of_call(refusal.number))?;
    if row >= rows {
        return Err(Refusal::of_call(number::NO_ROW));
    }
    if table.kind[row] != replacement.kind {
        return Err(Refusal::of_call(number::NO_COUNTERPART));
    }
    let value = value_of(replacement).map_err(Refusal::of_call)?;
    let out = out
        .get_mut(..file.len())
        .ok_or(Refusal::of_call(number::NO_ROOM))?;
    out.copy_from_slice(file);
    // A row of these kinds ends with its value.
    let end = table.first[row] as usize + table.length[row] as usize;
    out[end - value.len()..end].copy_from_slice(&value);
    Ok(file.len())
}

/// The value's bytes, judged as the reader would judge them; a kind that cannot
/// be replaced has no counterpart.
fn value_of(replacement: Replacement) -> Result<Vec<u8>, u32> {
    let Replacement { kind, unit, bits } = replacement;
    match kind {
        item::BOOL if bits > 1 => Err(number::OUT_OF_RANGE),
        item::BOOL => Ok(vec![bits as u8]),
        item::LONG => match u32::try_from(bits) {
            Ok(long) => Ok(long.to_be_bytes().to_vec()),
            Err(_) => Err(number::OUT_OF_RANGE),
        },
        item::LARGE => Ok(bits.to_be_bytes().to_vec()),
        item::DOUBLE => Ok(finite(bits)?.to_vec()),
        item::UNIT_DOUBLE if !is_unit(unit) => Err(number::UNKNOWN_UNIT),
        item::UNIT_DOUBLE => {
            let unit: [u8; UNIT_LEN] = unit.to_be_bytes();
            Ok([&unit[..], &finite(bits)?].concat())
        }
        _ => Err(number::NO_COUNTERPART),
    }
}

fn finite(bits: u64) -> Result<[u8; DOUBLE_LEN], u32> {
    if f64::from_bits(bits).is_finite() {
        Ok(bits.to_be_bytes())
    } else {
        Err(number::OUT_OF_RANGE)
    }
}

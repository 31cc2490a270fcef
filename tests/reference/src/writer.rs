//! Writing records as a file of two lists.

use crate::colour::{
    is_in_range, is_known, COLOUR_LEN, FIELD_LEN, HEAD_LEN, MAX_COLOURS, NAME_COUNT_LEN, SAMPLES,
    VERSION_ONE, VERSION_TWO,
};
use crate::ink;
use crate::name::{bytes_of, holds_zero_unit, units_in, UNIT_LEN};
use crate::output::put;
use crate::refusal::{number, Refusal};
use crate::{LIMIT, ROW_LEN};

/// What a record adds to the output besides its name's units: its colour in
/// both lists, the name's count and the closing zero.
const UNNAMED_LEN: u64 = (2 * COLOUR_LEN + NAME_COUNT_LEN + UNIT_LEN) as u64;

type Row = [u32; ROW_LEN];

/// The exact length of the output, or the refusal `write` would give, room aside.
pub fn length(records: &[u32], text: &[u8]) -> Result<usize, Refusal> {
    let (rows, _) = records.as_chunks::<ROW_LEN>();
    let need = output_len(rows).ok_or(Refusal::of_call(number::TOO_LONG))?;
    if rows.len() > MAX_COLOURS {
        return Err(Refusal::of_call(number::OUT_OF_RANGE));
    }
    for row in rows {
        judge_colour(row).map_err(Refusal::of_call)?;
    }
    for row in rows {
        judge_name(row, text).map_err(Refusal::of_call)?;
    }
    // A file has no field for the ink.
    if rows.iter().any(|row| row[7] != ink::NOT_STATED) {
        return Err(Refusal::of_call(number::NO_COUNTERPART));
    }
    Ok(need)
}

/// Writes both lists for the records, whose names lie in `text`. A remainder
/// too short for a record is left alone. Nothing of `out` changes on a
/// refusal, nor past the length that is given back.
pub fn write(records: &[u32], text: &[u8], out: &mut [u8]) -> Result<usize, Refusal> {
    let need = length(records, text)?;
    let out = out
        .get_mut(..need)
        .ok_or(Refusal::of_call(number::NO_ROOM))?;
    let (rows, _) = records.as_chunks::<ROW_LEN>();
    let (list_one, list_two) = out.split_at_mut(HEAD_LEN + rows.len() * COLOUR_LEN);
    write_list_one(rows, list_one);
    write_list_two(rows, text, list_two);
    Ok(need)
}

/// The whole output's length where the limit allows it. It leaves off at the
/// first record over the limit, so no sum comes near what 64 bits hold.
fn output_len(rows: &[Row]) -> Option<usize> {
    let mut total = 2 * HEAD_LEN as u64;
    for row in rows {
        total += UNNAMED_LEN + bytes_of(row[6]);
        if total > LIMIT as u64 {
            return None;
        }
    }
    Some(total as usize)
}

/// Judges the space and then each sample, in turn.
fn judge_colour(row: &Row) -> Result<(), u32> {
    let [space, samples @ .., _, _, _] = row;
    let space = u16::try_from(*space).map_err(|_| number::UNKNOWN_SPACE)?;
    if !is_known(space) {
        return Err(number::UNKNOWN_SPACE);
    }
    for (index, &sample) in samples.iter().enumerate() {
        let sample = u16::try_from(sample).map_err(|_| number::OUT_OF_RANGE)?;
        if !is_in_range(space, index, sample) {
            return Err(number::OUT_OF_RANGE);
        }
    }
    Ok(())
}

fn judge_name(row: &Row, text: &[u8]) -> Result<(), u32> {
    let units = name_units(row, text).ok_or(number::CUT)?;
    if holds_zero_unit(units) {
        return Err(number::BADLY_CLOSED);
    }
    Ok(())
}

fn name_units<'a>(row: &Row, text: &'a [u8]) -> Option<&'a [u8]> {
    units_in(text, row[5], row[6])
}

fn head(version: u16, colours: usize) -> [u8; HEAD_LEN] {
    let [a, b] = version.to_be_bytes();
    let [c, d] = (colours as u16).to_be_bytes();
    [a, b, c, d]
}

/// A judged record's colour as it stands in both lists.
fn colour(row: &Row) -> [u8; COLOUR_LEN] {
    let mut bytes = [0; COLOUR_LEN];
    let (fields, _) = bytes.as_chunks_mut::<FIELD_LEN>();
    for (field, &value) in fields.iter_mut().zip(&row[..1 + SAMPLES]) {
        *field = (value as u16).to_be_bytes();
    }
    bytes
}

/// The colour with the count of its name, closing zero and all.
fn named(row: &Row) -> [u8; COLOUR_LEN + NAME_COUNT_LEN] {
    let mut bytes = [0; COLOUR_LEN + NAME_COUNT_LEN];
    let (start, count) = bytes.split_at_mut(COLOUR_LEN);
    start.copy_from_slice(&colour(row));
    count.copy_from_slice(&(row[6] + 1).to_be_bytes());
    bytes
}

fn write_list_one(rows: &[Row], out: &mut [u8]) {
    let (start, colours) = out.split_at_mut(HEAD_LEN);
    start.copy_from_slice(&head(VERSION_ONE, rows.len()));
    let (colours, _) = colours.as_chunks_mut::<COLOUR_LEN>();
    for (bytes, row) in colours.iter_mut().zip(rows) {
        *bytes = colour(row);
    }
}

fn write_list_two(rows: &[Row], text: &[u8], out: &mut [u8]) {
    let mut rest = out;
    put(&mut rest, &head(VERSION_TWO, rows.len()));
    for row in rows {
        let units = name_units(row, text).expect("a judged name lies in the text");
        put(&mut rest, &named(row));
        put(&mut rest, units);
        put(&mut rest, &[0; UNIT_LEN]);
    }
}

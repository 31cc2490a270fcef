//! Writing records as a file.

use super::layout::{
    CHANNEL_LEN, COLOUR, ENVELOPE_LEN, GROUP_END, GROUP_START, HEAD_LEN, INK_LEN, MAJOR_VERSION,
    MAX_OPEN, MINOR_VERSION, MODEL_LEN, NAME_COUNT_LEN, ROW_LEN, SIGNATURE,
};
use super::reader::is_stated;
use crate::ink;
use crate::model::{channel_count, is_in_range};
use crate::name::{bytes_of, holds_zero_unit, units_in, UNIT_LEN};
use crate::output::put;
use crate::refusal::{number, Refusal};
use crate::LIMIT;

type Row = [u32; ROW_LEN];

// As rows have them: a number that 16 bits do not hold is no type's.
const START_ROW: u32 = GROUP_START as u32;
const END_ROW: u32 = GROUP_END as u32;
const COLOUR_ROW: u32 = COLOUR as u32;

/// A name's count has 16 bits, and counts the closing zero.
const MAX_UNITS: u32 = u16::MAX as u32 - 1;

/// What a colour has besides its name and its channels.
const BARE_COLOUR_LEN: usize = MODEL_LEN + INK_LEN;

/// The exact length of the output, or the refusal `write` would give, room aside.
pub fn length(records: &[u32], text: &[u8]) -> Result<usize, Refusal> {
    let (rows, _) = records.as_chunks::<ROW_LEN>();
    let need = output_len(rows).ok_or(Refusal::of_call(number::TOO_LONG))?;
    judge_rows(rows, text).map_err(Refusal::of_call)?;
    let has_counterpart = |row: &Row| row[0] != COLOUR_ROW || is_stated(row[8]);
    if !rows.iter().all(has_counterpart) {
        return Err(Refusal::of_call(number::NO_COUNTERPART));
    }
    Ok(need)
}

/// Writes the records, whose names lie in `text`. A remainder too short for a
/// record is left alone. Nothing of `out` changes on a refusal, nor past the
/// length that is given back.
pub fn write(records: &[u32], text: &[u8], out: &mut [u8]) -> Result<usize, Refusal> {
    let need = length(records, text)?;
    let mut rest = out
        .get_mut(..need)
        .ok_or(Refusal::of_call(number::NO_ROOM))?;
    let (rows, _) = records.as_chunks::<ROW_LEN>();
    put(&mut rest, &head(rows.len()));
    for row in rows {
        put_block(&mut rest, row, text);
    }
    Ok(need)
}

/// The whole output's length where the limit allows it. It leaves off at the
/// first record over the limit, so no sum comes near what 64 bits hold, and
/// within it no count of blocks passes 32 bits.
fn output_len(rows: &[Row]) -> Option<usize> {
    let mut total = HEAD_LEN as u64;
    for row in rows {
        total += ENVELOPE_LEN as u64 + payload_len(row);
        if total > LIMIT as u64 {
            return None;
        }
    }
    Some(total as usize)
}

/// An unknown type is counted with its envelope alone, and an unknown model
/// without channels.
#[inline(always)]
fn payload_len(row: &Row) -> u64 {
    let &[block, _, units, model, ..] = row;
    match block {
        START_ROW => name_len(units),
        COLOUR_ROW => {
            let channels = channel_count(model).unwrap_or(0);
            name_len(units) + (BARE_COLOUR_LEN + CHANNEL_LEN * channels) as u64
        }
        _ => 0,
    }
}

#[inline(always)]
fn name_len(units: u32) -> u64 {
    (NAME_COUNT_LEN + UNIT_LEN) as u64 + bytes_of(units)
}

/// Judges the records in the order of the bytes that they would make.
fn judge_rows(rows: &[Row], text: &[u8]) -> Result<(), u32> {
    let mut open = 0;
    for row in rows {
        match row[0] {
            COLOUR_ROW => {
                judge_name(row, text)?;
                judge_colour(row)?;
            }
            START_ROW if open == MAX_OPEN => return Err(number::TOO_DEEP),
            START_ROW => {
                judge_name(row, text)?;
                open += 1;
            }
            END_ROW if open == 0 => return Err(number::UNBALANCED),
            END_ROW => open -= 1,
            _ => return Err(number::UNKNOWN_BLOCK),
        }
    }
    if open > 0 {
        return Err(number::UNBALANCED);
    }
    Ok(())
}

#[inline(always)]
fn judge_name(row: &Row, text: &[u8]) -> Result<(), u32> {
    let &[_, place, units, ..] = row;
    if units > MAX_UNITS {
        return Err(number::OUT_OF_RANGE);
    }
    let units = units_in(text, place, units).ok_or(number::CUT)?;
    if holds_zero_unit(units) {
        return Err(number::BADLY_CLOSED);
    }
    Ok(())
}

/// Judges the model and then what its colour has; channels to spare are not
/// looked at. An ink that no file states is none of these faults.
#[inline(always)]
fn judge_colour(row: &Row) -> Result<(), u32> {
    let &[_, _, _, model, ref channels @ .., ink] = row;
    let count = channel_count(model).ok_or(number::UNKNOWN_MODEL)?;
    let in_range = channels[..count]
        .iter()
        .all(|&bits| is_in_range(model, bits));
    if !in_range || ink > ink::NOT_STATED {
        return Err(number::OUT_OF_RANGE);
    }
    Ok(())
}

fn head(blocks: usize) -> [u8; HEAD_LEN] {
    let [a, b, c, d] = SIGNATURE;
    let [e, f] = MAJOR_VERSION.to_be_bytes();
    let [g, h] = MINOR_VERSION.to_be_bytes();
    let [i, j, k, l] = (blocks as u32).to_be_bytes();
    [a, b, c, d, e, f, g, h, i, j, k, l]
}

/// Puts a judged record's block.
#[inline(always)]
fn put_block(rest: &mut &mut [u8], row: &Row, text: &[u8]) {
    put(rest, &envelope(row));
    if row[0] != END_ROW {
        put_name(rest, row, text);
    }
    if row[0] == COLOUR_ROW {
        put_colour(rest, row);
    }
}

#[inline(always)]
fn envelope(row: &Row) -> [u8; ENVELOPE_LEN] {
    let [a, b] = (row[0] as u16).to_be_bytes();
    let [c, d, e, f] = (payload_len(row) as u32).to_be_bytes();
    [a, b, c, d, e, f]
}

#[inline(always)]
fn put_name(rest: &mut &mut [u8], row: &Row, text: &[u8]) {
    let &[_, place, units, ..] = row;
    let count = units as u16 + 1;
    let units = units_in(text, place, units).expect("a judged name lies in the text");
    put(rest, &count.to_be_bytes());
    put(rest, units);
    put(rest, &[0; UNIT_LEN]);
}

#[inline(always)]
fn put_colour(rest: &mut &mut [u8], row: &Row) {
    let &[_, _, _, model, ref channels @ .., ink] = row;
    let count = channel_count(model).expect("a judged model is known");
    put(rest, &model.to_be_bytes());
    for bits in &channels[..count] {
        put(rest, &bits.to_be_bytes());
    }
    put(rest, &(ink as u16).to_be_bytes());
}

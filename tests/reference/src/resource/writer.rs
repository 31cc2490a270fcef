//! Writing records as a section.

use super::layout::{pad_len, BARE_BLOCK_LEN, MAX_NAME, NAME_LENGTH_LEN, ROW_LEN, SIGNATURE};
use crate::output::put;
use crate::refusal::{number, Refusal};
use crate::LIMIT;

type Row = [u32; ROW_LEN];

const MAX_ID: u32 = u16::MAX as u32;

/// The exact length of the output, or the refusal `write` would give, room aside.
pub fn length(records: &[u32], text: &[u8]) -> Result<usize, Refusal> {
    let (rows, _) = records.as_chunks::<ROW_LEN>();
    let need = output_len(rows).ok_or(Refusal::of_call(number::TOO_LONG))?;
    rows.iter()
        .try_for_each(|row| judge_row(row, text))
        .map_err(Refusal::of_call)?;
    Ok(need)
}

/// Writes the records, whose names and data lie in `text`. A remainder too short
/// for a record is left alone. Nothing of `out` changes on a refusal, nor past
/// the length that is given back.
pub fn write(records: &[u32], text: &[u8], out: &mut [u8]) -> Result<usize, Refusal> {
    let need = length(records, text)?;
    let mut rest = out
        .get_mut(..need)
        .ok_or(Refusal::of_call(number::NO_ROOM))?;
    let (rows, _) = records.as_chunks::<ROW_LEN>();
    for row in rows {
        put_block(&mut rest, row, text);
    }
    Ok(need)
}

/// The whole output's length where the limit allows it. It leaves off at the
/// first record over the limit, so no sum comes near what 64 bits hold.
fn output_len(rows: &[Row]) -> Option<usize> {
    let mut total = 0;
    for row in rows {
        total += block_len(row);
        if total > LIMIT as u64 {
            return None;
        }
    }
    Some(total as usize)
}

/// A block's length with names and data as long as they are given, though a
/// name's may be more than its field holds.
#[inline(always)]
fn block_len(row: &Row) -> u64 {
    let &[_, _, name_length, _, data_length] = row;
    let (name, data) = (u64::from(name_length), u64::from(data_length));
    // The bare block has the pad of an empty name: an even name keeps it, an
    // odd one stands in its place.
    BARE_BLOCK_LEN as u64 + (name - name % 2) + (data + data % 2)
}

/// Judges a record in the order of the bytes that it would make.
#[inline(always)]
fn judge_row(row: &Row, text: &[u8]) -> Result<(), u32> {
    let &[id, name, name_length, data, data_length] = row;
    if id > MAX_ID || name_length > MAX_NAME {
        return Err(number::OUT_OF_RANGE);
    }
    for (place, length) in [(name, name_length), (data, data_length)] {
        part(text, place, length).ok_or(number::CUT)?;
    }
    Ok(())
}

/// The bytes that a record gives by their place, where the text holds them all.
/// None at all are in any text, whatever their place.
#[inline(always)]
fn part(text: &[u8], place: u32, length: u32) -> Option<&[u8]> {
    if length == 0 {
        return Some(&[]);
    }
    text.get(place as usize..)?.get(..length as usize)
}

/// Puts a judged record's block.
#[inline(always)]
fn put_block(rest: &mut &mut [u8], row: &Row, text: &[u8]) {
    let &[id, name, name_length, data, data_length] = row;
    let judged = "a judged record's parts lie in the text";
    let name = part(text, name, name_length).expect(judged);
    let data = part(text, data, data_length).expect(judged);
    put(rest, &head(id as u16, name.len() as u8));
    put(rest, name);
    put_pad(rest, NAME_LENGTH_LEN + name.len());
    put(rest, &data_length.to_be_bytes());
    put(rest, data);
    put_pad(rest, data.len());
}

/// What stands before a name's text: the signature, the ID and the length byte.
#[inline(always)]
fn head(id: u16, name_length: u8) -> [u8; 7] {
    let [a, b, c, d] = SIGNATURE;
    let [e, f] = id.to_be_bytes();
    [a, b, c, d, e, f, name_length]
}

#[inline(always)]
fn put_pad(rest: &mut &mut [u8], len: usize) {
    if pad_len(len) > 0 {
        put(rest, &[0]);
    }
}

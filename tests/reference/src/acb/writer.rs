//! Writing records as a book.

use super::header::{Header, Tag, Text};
use super::layout::{
    component_count, BARE_HEAD_LEN, CODE_LEN, COMPONENTS, COUNT_LEN, MAX_COLOURS, ROW_LEN,
    SIGNATURE, VERSION,
};
use crate::name::{bytes_of, units_in, units_within};
use crate::output::put;
use crate::refusal::{number, Refusal};
use crate::LIMIT;

type Row = [u32; ROW_LEN];

/// An unknown space is counted with so many components.
const COUNTED_COMPONENTS: usize = 3;

/// The exact length of the output, or the refusal `write` would give, room aside.
pub fn length(header: &Header, records: &[u32], text: &[u8]) -> Result<usize, Refusal> {
    let (rows, _) = records.as_chunks::<ROW_LEN>();
    let need = output_len(header, rows).ok_or(Refusal::of_call(number::TOO_LONG))?;
    judge(header, rows, text).map_err(Refusal::of_call)?;
    let ink = header.tag.ink();
    if rows.iter().any(|row| row[ROW_LEN - 1] != ink) {
        return Err(Refusal::of_call(number::NO_COUNTERPART));
    }
    Ok(need)
}

/// Writes a book whose strings and names lie in `text`. A remainder too short
/// for a record is left alone. Nothing of `out` changes on a refusal, nor past
/// the length that is given back.
pub fn write(
    header: &Header,
    records: &[u32],
    text: &[u8],
    out: &mut [u8],
) -> Result<usize, Refusal> {
    let need = length(header, records, text)?;
    let mut rest = out
        .get_mut(..need)
        .ok_or(Refusal::of_call(number::NO_ROOM))?;
    let (rows, _) = records.as_chunks::<ROW_LEN>();
    put_head(&mut rest, header, rows.len(), text);
    let components = counted_components(header);
    for row in rows {
        put_record(&mut rest, row, components, text);
    }
    put(&mut rest, header.tag.bytes());
    Ok(need)
}

fn counted_components(header: &Header) -> usize {
    component_count(header.space).unwrap_or(COUNTED_COMPONENTS)
}

/// The whole output's length where the limit allows it. It leaves off at the
/// first record over the limit, so no sum comes near what 64 bits hold.
fn output_len(header: &Header, rows: &[Row]) -> Option<usize> {
    let strings: u64 = header
        .strings()
        .map(|text| bytes_of(text.units))
        .iter()
        .sum();
    let mut total = (BARE_HEAD_LEN + header.tag.bytes().len()) as u64 + strings;
    let unnamed = (COUNT_LEN + CODE_LEN + counted_components(header)) as u64;
    for &[_, units, ..] in rows {
        total += unnamed + bytes_of(units);
        if total > LIMIT as u64 {
            return None;
        }
    }
    (total <= LIMIT as u64).then_some(total as usize)
}

/// Judges in the order of the bytes that would be made.
fn judge(header: &Header, rows: &[Row], text: &[u8]) -> Result<(), u32> {
    for Text { place, units } in header.strings() {
        units_within(text, place, units).ok_or(number::CUT)?;
    }
    if rows.len() > MAX_COLOURS || header.page_size == 0 {
        return Err(number::OUT_OF_RANGE);
    }
    let components = component_count(header.space).ok_or(number::UNKNOWN_SPACE)?;
    rows.iter()
        .try_for_each(|row| judge_row(row, components, text))?;
    if header.tag == Tag::Other {
        return Err(number::WRONG_TAG);
    }
    Ok(())
}

/// Judges the name, then the code and the components that the space has, each
/// of which is a byte; a component to spare is not looked at.
#[inline(always)]
fn judge_row(row: &Row, components: usize, text: &[u8]) -> Result<(), u32> {
    let &[place, units, ref bytes @ .., _] = row;
    units_in(text, place, units).ok_or(number::CUT)?;
    let used = &bytes[..CODE_LEN + components];
    let all = used.iter().fold(0, |all, number| all | number);
    if all > u32::from(u8::MAX) {
        return Err(number::OUT_OF_RANGE);
    }
    Ok(())
}

fn put_head(rest: &mut &mut [u8], header: &Header, colours: usize, text: &[u8]) {
    put(rest, &SIGNATURE);
    put(rest, &VERSION.to_be_bytes());
    put(rest, &header.identifier.to_be_bytes());
    for Text { place, units } in header.strings() {
        put_string(rest, units_within(text, place, units), units);
    }
    let numbers = [
        colours as u16,
        header.page_size,
        header.page_offset,
        header.space,
    ];
    for number in numbers {
        put(rest, &number.to_be_bytes());
    }
}

#[inline(always)]
fn put_string(rest: &mut &mut [u8], units: Option<&[u8]>, count: u32) {
    put(rest, &count.to_be_bytes());
    put(rest, units.expect("a judged string lies in the text"));
}

/// Puts a judged record, its code and components at once.
#[inline(always)]
fn put_record(rest: &mut &mut [u8], row: &Row, components: usize, text: &[u8]) {
    let &[place, units, ref numbers @ .., _] = row;
    put_string(rest, units_in(text, place, units), units);
    let bytes: [u8; CODE_LEN + COMPONENTS] = numbers.map(|number| number as u8);
    if components == COMPONENTS {
        put(rest, &bytes);
    } else {
        put(rest, &bytes[..CODE_LEN + COMPONENTS - 1]);
    }
}

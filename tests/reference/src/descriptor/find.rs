//! Looking for keys among the pairs of the root.

use super::layout::CHARACTERS;
use super::table::{rows_in, Table};
use crate::refusal::{number, Refusal};

/// The length field of an ID.
const LENGTH_LEN: usize = 4;
/// The root's first child stands directly behind it.
const FIRST_CHILD: usize = 1;

/// Why no key was answered: a refusal of the call, or of the keys, whose place is
/// one of the key buffer.
#[derive(Clone, Copy, Debug, PartialEq, Eq)]
pub enum NotFound {
    Call(Refusal),
    Keys(Refusal),
}

/// Judges the file, holds the table to it, reads the keys, and gives for each the
/// row of the root's first pair that has it, or the number of rows. The keys are
/// IDs one after the other. Nothing of the answers changes on a refusal, nor past
/// the keys, whose number is given back.
pub fn find(
    file: &[u8],
    table: Table<'_>,
    keys: &[u8],
    answers: &mut [u32],
) -> Result<usize, NotFound> {
    let rows = rows_in(file, table).map_err(NotFound::Call)?;
    let count = count_keys(keys).map_err(NotFound::Keys)?;
    let answers = answers
        .get_mut(..count)
        .ok_or(NotFound::Call(Refusal::of_call(number::NO_ROOM)))?;
    let mut rest = keys;
    for answer in answers {
        let (key, behind) = rest.split_at(key_len(rest).expect("a counted key is whole"));
        *answer = row_of(file, table, rows, key) as u32;
        rest = behind;
    }
    Ok(count)
}

/// The first pair of the root whose key is this one, length field and bytes.
fn row_of(file: &[u8], table: Table<'_>, rows: usize, key: &[u8]) -> usize {
    let mut row = FIRST_CHILD;
    while row < rows && !file[table.first[row] as usize..].starts_with(key) {
        row = table.next[row] as usize;
    }
    row
}

/// How many keys there are, or where the first that is cut lacks bytes.
fn count_keys(keys: &[u8]) -> Result<usize, Refusal> {
    let (mut count, mut rest) = (0, keys);
    while !rest.is_empty() {
        let place = keys.len() - rest.len();
        let len = key_len(rest).map_err(|field| Refusal::at(number::CUT, place + field))?;
        rest = &rest[len..];
        count += 1;
    }
    Ok(count)
}

/// The length of the first key, or where in it the field begins that is cut.
#[inline(always)]
fn key_len(rest: &[u8]) -> Result<usize, usize> {
    let (length, body) = rest.split_first_chunk::<LENGTH_LEN>().ok_or(0usize)?;
    let length = match u32::from_be_bytes(*length) {
        0 => CHARACTERS,
        length => length,
    };
    if u64::from(length) > body.len() as u64 {
        return Err(LENGTH_LEN);
    }
    Ok(LENGTH_LEN + length as usize)
}

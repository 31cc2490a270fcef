//! Judging a section and handing out its records, one a block.

use super::layout::{pad_len, NAME_LENGTH_LEN, ROW_LEN, SIGNATURE};
use crate::cursor::Cursor;
use crate::refusal::{number, Fault, Refusal};
use crate::LIMIT;

/// A block of an accepted section: where its name's text and its data lie. One
/// of no bytes has the place where it would begin.
#[derive(Clone, Copy, Debug, PartialEq, Eq)]
pub struct Record {
    pub id: u16,
    pub name: usize,
    pub name_length: usize,
    pub data: usize,
    pub data_length: usize,
}

/// Judges a whole section, and gives the number of its blocks.
pub fn judge(section: &[u8]) -> Result<usize, Refusal> {
    if section.len() > LIMIT {
        return Err(Refusal::of_call(number::TOO_LONG));
    }
    let mut cursor = Cursor::new(section);
    let mut blocks = 0;
    while !cursor.rest().is_empty() {
        take_block(&mut cursor)?;
        blocks += 1;
    }
    Ok(blocks)
}

/// Judges the section, then fills a row of the table for each block. Nothing of
/// the table changes on a refusal, nor past the rows.
pub fn read(section: &[u8], table: &mut [u32]) -> Result<usize, Refusal> {
    let blocks = judge(section)?;
    let (rows, _) = table.as_chunks_mut::<ROW_LEN>();
    let rows = rows
        .get_mut(..blocks)
        .ok_or(Refusal::of_call(number::NO_ROOM))?;
    for (row, record) in rows.iter_mut().zip(Records::new(section)) {
        *row = record.row();
    }
    Ok(blocks)
}

/// Judges the section, then gives the record of that number, counted from 0.
pub fn record(section: &[u8], index: usize) -> Result<Record, Refusal> {
    judge(section)?;
    Records::new(section)
        .nth(index)
        .ok_or(Refusal::of_call(number::NO_RECORD))
}

/// Judges the section, then gives the number of the first block with that ID.
pub fn find(section: &[u8], id: u16) -> Result<usize, Refusal> {
    judge(section)?;
    Records::new(section)
        .position(|record| record.id == id)
        .ok_or(Refusal::of_call(number::NO_RECORD))
}

/// The text of that record's name, a part of the section.
pub fn name(section: &[u8], index: usize) -> Result<&[u8], Refusal> {
    record(section, index).map(|record| record.name_in(section))
}

/// That record's data, a part of the section.
pub fn data(section: &[u8], index: usize) -> Result<&[u8], Refusal> {
    record(section, index).map(|record| &section[record.data..][..record.data_length])
}

/// The next block with its pads, each field judged in its turn.
#[inline(always)]
fn take_block(cursor: &mut Cursor) -> Result<Record, Fault> {
    let start = cursor.place();
    if cursor.take()? != SIGNATURE {
        return Err(Fault::at(number::WRONG_SIGNATURE, start));
    }
    let id = cursor.take_u16()?;
    let [name_length] = cursor.take()?;
    let name = cursor.place();
    let text = cursor.take_run(name_length.into())?;
    take_pad(cursor, NAME_LENGTH_LEN + text.len())?;
    let size = cursor.take_u32()?;
    let data = cursor.place();
    let body = cursor.take_run(size.into())?;
    take_pad(cursor, body.len())?;
    Ok(Record {
        id,
        name,
        name_length: text.len(),
        data,
        data_length: body.len(),
    })
}

/// The pad behind so many bytes, where they have one.
#[inline(always)]
fn take_pad(cursor: &mut Cursor, len: usize) -> Result<(), Fault> {
    if pad_len(len) == 0 {
        return Ok(());
    }
    let place = cursor.place();
    match cursor.take()? {
        [0] => Ok(()),
        _ => Err(Fault::at(number::OUT_OF_RANGE, place)),
    }
}

impl Record {
    #[inline(always)]
    fn row(&self) -> [u32; ROW_LEN] {
        // A section's places fit 32 bits, since its length does.
        [
            u32::from(self.id),
            self.name as u32,
            self.name_length as u32,
            self.data as u32,
            self.data_length as u32,
        ]
    }

    /// The name's text in the section that the record is of.
    pub(super) fn name_in<'a>(&self, section: &'a [u8]) -> &'a [u8] {
        &section[self.name..][..self.name_length]
    }
}

/// Goes over the records of an accepted section, in file order.
pub(super) struct Records<'a>(Cursor<'a>);

impl<'a> Records<'a> {
    pub(super) fn new(section: &'a [u8]) -> Self {
        Records(Cursor::new(section))
    }
}

impl Iterator for Records<'_> {
    type Item = Record;

    /// An accepted section has a single fault: behind the last block no
    /// signature follows.
    #[inline(always)]
    fn next(&mut self) -> Option<Record> {
        take_block(&mut self.0).ok()
    }
}

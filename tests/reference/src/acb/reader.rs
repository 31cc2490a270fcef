//! Judging a book and handing out its colours.

use super::header::{Header, Tag, Text};
use super::layout::{
    component_count, CODE_LEN, COMPONENTS, COUNT_LEN, ROW_LEN, SIGNATURE, VERSION,
};
use crate::cursor::Cursor;
use crate::name::{bytes_of, UNIT_LEN};
use crate::refusal::{number, Refusal};
use crate::LIMIT;

/// What judging an accepted file says of it.
#[derive(Clone, Copy, Debug, PartialEq, Eq)]
pub struct Accepted {
    pub count: usize,
    pub header: Header,
}

/// A colour of an accepted file. The name is where its units lie in the file;
/// without units the colour is a dummy. A fourth component that the space does
/// not have is 0.
#[derive(Clone, Copy, Debug, Default, PartialEq, Eq)]
pub struct Record {
    pub name: Text,
    pub code: [u8; CODE_LEN],
    pub components: [u8; COMPONENTS],
    pub ink: u32,
}

/// Judges a whole file.
pub fn judge(file: &[u8]) -> Result<Accepted, Refusal> {
    judge_whole(file).map(|judged| judged.accepted)
}

/// Judges the file, then fills a row of the table for each colour. Nothing of
/// the table changes on a refusal, nor past the rows.
pub fn read(file: &[u8], table: &mut [u32]) -> Result<Accepted, Refusal> {
    let judged = judge_whole(file)?;
    let (rows, _) = table.as_chunks_mut::<ROW_LEN>();
    let rows = rows
        .get_mut(..judged.accepted.count)
        .ok_or(Refusal::of_call(number::NO_ROOM))?;
    for (row, record) in rows.iter_mut().zip(judged.records(file)) {
        *row = record.row();
    }
    Ok(judged.accepted)
}

/// Judges the file, then gives the colour of that number, counted from 0.
pub fn record(file: &[u8], index: usize) -> Result<Record, Refusal> {
    judge_whole(file)?.record(file, index)
}

/// An accepted file, and where its colours begin.
#[derive(Clone, Copy)]
pub(crate) struct Judged {
    pub(crate) accepted: Accepted,
    components: usize,
    first_record: usize,
}

impl Judged {
    pub(crate) fn records<'a>(&self, file: &'a [u8]) -> Records<'a> {
        Records {
            rest: &file[self.first_record..],
            file_len: file.len(),
            components: self.components,
            left: self.accepted.count,
            ink: self.accepted.header.tag.ink(),
        }
    }

    pub(super) fn record(&self, file: &[u8], index: usize) -> Result<Record, Refusal> {
        self.records(file)
            .nth(index)
            .ok_or(Refusal::of_call(number::NO_RECORD))
    }

    pub(super) fn components(&self) -> usize {
        self.components
    }
}

pub(crate) fn judge_whole(file: &[u8]) -> Result<Judged, Refusal> {
    if file.len() > LIMIT {
        return Err(Refusal::of_call(number::TOO_LONG));
    }
    let mut cursor = Cursor::new(file);
    let (mut header, count) = judge_head(&mut cursor)?;
    let components = judge_space(&mut cursor, &mut header)?;
    let first_record = cursor.place();
    for _ in 0..count {
        judge_record(&mut cursor, components)?;
    }
    header.tag = judge_tag(&mut cursor)?;
    cursor.judge_end()?;
    let accepted = Accepted {
        count: usize::from(count),
        header,
    };
    Ok(Judged {
        accepted,
        components,
        first_record,
    })
}

/// Judges all before the space; gives the colour count with it.
fn judge_head(cursor: &mut Cursor) -> Result<(Header, u16), Refusal> {
    if cursor.take()? != SIGNATURE {
        return Err(Refusal::at(number::WRONG_SIGNATURE, 0));
    }
    let place = cursor.place();
    if cursor.take_u16()? != VERSION {
        return Err(Refusal::at(number::WRONG_VERSION, place));
    }
    let mut header = Header {
        identifier: cursor.take_u16()?,
        title: judge_string(cursor)?,
        prefix: judge_string(cursor)?,
        suffix: judge_string(cursor)?,
        description: judge_string(cursor)?,
        ..Header::default()
    };
    let count = cursor.take_u16()?;
    let place = cursor.place();
    header.page_size = cursor.take_u16()?;
    if header.page_size == 0 {
        return Err(Refusal::at(number::OUT_OF_RANGE, place));
    }
    header.page_offset = cursor.take_u16()?;
    Ok((header, count))
}

/// Judges the space, and gives the number of its components.
fn judge_space(cursor: &mut Cursor, header: &mut Header) -> Result<usize, Refusal> {
    let place = cursor.place();
    header.space = cursor.take_u16()?;
    component_count(header.space).ok_or(Refusal::at(number::UNKNOWN_SPACE, place))
}

#[inline(always)]
fn judge_string(cursor: &mut Cursor) -> Result<Text, Refusal> {
    let units = cursor.take_u32()?;
    let place = cursor.place();
    cursor.take_units(units)?;
    Ok(Text { place, units })
}

/// A dummy has its code and its components like any other colour.
#[inline(always)]
fn judge_record(cursor: &mut Cursor, components: usize) -> Result<(), Refusal> {
    judge_string(cursor)?;
    let rest = cursor.rest();
    if rest.len() >= CODE_LEN + components {
        cursor.take_run((CODE_LEN + components) as u64)?;
        return Ok(());
    }
    // Cut: of a byte each, the missing component begins where the file ends.
    cursor.take::<CODE_LEN>()?;
    let place = cursor.place() + cursor.rest().len();
    Err(Refusal::at(number::CUT, place))
}

fn judge_tag(cursor: &mut Cursor) -> Result<Tag, Refusal> {
    if cursor.rest().is_empty() {
        return Ok(Tag::None);
    }
    let place = cursor.place();
    Tag::of(cursor.take()?).ok_or(Refusal::at(number::WRONG_TAG, place))
}

impl Record {
    pub fn is_dummy(&self) -> bool {
        self.name.units == 0
    }

    #[inline(always)]
    fn row(&self) -> [u32; ROW_LEN] {
        let [a, b, c, d, e, f] = self.code.map(u32::from);
        let [w, x, y, z] = self.components.map(u32::from);
        // A file's places fit 32 bits, since its length does.
        let place = self.name.place as u32;
        let (units, ink) = (self.name.units, self.ink);
        [place, units, a, b, c, d, e, f, w, x, y, z, ink]
    }
}

/// The bytes of a string of an accepted file.
pub(super) fn string(file: &[u8], text: Text) -> &[u8] {
    &file[text.place..][..UNIT_LEN * text.units as usize]
}

/// Goes over the colours of an accepted file, in file order.
pub(crate) struct Records<'a> {
    /// The file from the next colour on.
    rest: &'a [u8],
    file_len: usize,
    components: usize,
    left: usize,
    ink: u32,
}

impl Records<'_> {
    #[inline(always)]
    fn take<const LEN: usize>(&mut self) -> [u8; LEN] {
        let (field, rest) = self
            .rest
            .split_first_chunk()
            .expect("an accepted file has its fields");
        self.rest = rest;
        *field
    }

    #[inline(always)]
    fn take_components(&mut self) -> [u8; COMPONENTS] {
        if self.components == COMPONENTS {
            return self.take();
        }
        let [a, b, c] = self.take();
        [a, b, c, 0]
    }
}

impl Iterator for Records<'_> {
    type Item = Record;

    #[inline(always)]
    fn next(&mut self) -> Option<Record> {
        self.left = self.left.checked_sub(1)?;
        let units = u32::from_be_bytes(self.take::<COUNT_LEN>());
        let place = self.file_len - self.rest.len();
        self.rest = &self.rest[bytes_of(units) as usize..];
        Some(Record {
            name: Text { place, units },
            code: self.take(),
            components: self.take_components(),
            ink: self.ink,
        })
    }
}
